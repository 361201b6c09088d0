//! What `plan chart` draws, by docs/PICTURES.md: read back from the SVG and compared with the planner's reference. Nothing is asked about where on the
//! page things stand but what a reader needs: each bar lies in the row of its core, each label stands beside what it names, no two texts overlap,
//! and nothing leaves the page.
use crate::reference::bounds::{bounds, least_path};
use crate::reference::graph::{Graph, PARTS_IN_A_TICK};
use crate::reference::log::Event;
use crate::reference::refusal::Refusal;
use crate::reference::replay::{replay, stretches};
use crate::reference::second::second;
use crate::shown::called;
use crate::xml::{self, Element};

type Judged<T> = Result<T, String>;

fn wanted(holds: bool, what: impl FnOnce() -> String) -> Judged<()> {
    if holds {
        Ok(())
    } else {
        Err(what())
    }
}

/// What is drawn: a log of a graph that is in form, and what the heading calls it.
pub struct Drawn<'a> {
    pub graph: &'a Graph,
    pub names: &'a [Vec<u8>],
    pub types: &'a [Vec<u8>],
    pub called: &'static str,
    pub log: &'a [u8],
}

/// A stage's time on a core without a break.
#[derive(Clone, Copy, Debug, PartialEq, Eq, PartialOrd, Ord)]
struct Stretch {
    stage: usize,
    begin: i64,
    end: i64,
}

/// What the reference says of it.
struct Should<'a> {
    of: &'a Drawn<'a>,
    events: Vec<Event>,
    stretches: Vec<Stretch>,
    finish: i64,
    new: i64,
    second: Option<i64>,
    path: Vec<u8>,
    refusal: Option<Refusal>,
}

impl Should<'_> {
    fn of<'a>(of: &'a Drawn<'a>) -> Should<'a> {
        let events: Vec<Event> = of.log.chunks(8).map(|record| Event::from_record(record).expect("a record")).collect();
        let ran = stretches(of.graph.vertices(), &events);
        let of_stage = |(stage, ran): (usize, &Vec<std::ops::Range<u32>>)| {
            let one = |s: &std::ops::Range<u32>| Stretch { stage, begin: s.start as i64, end: s.end as i64 };
            ran.iter().map(one).collect::<Vec<Stretch>>()
        };
        let judged = replay(of.graph, of.log, of.graph.vertices());
        let last = events.last().map_or(0, |event| event.instant as u64);
        Should {
            of,
            stretches: ran.iter().enumerate().flat_map(of_stage).collect(),
            events,
            finish: judged.as_ref().map_or(last, |replay| replay.finish) as i64,
            new: bounds(of.graph).ticks as i64,
            second: second(of.graph).ok().map(|parts| (parts / PARTS_IN_A_TICK) as i64),
            path: least_path(of.graph),
            refusal: judged.err(),
        }
    }

    fn number(&self) -> u32 {
        self.refusal.map_or(0, |refusal| refusal.number)
    }

    /// The start that 19 and 20 point at, and its type.
    fn refused_start(&self) -> Option<(Event, usize)> {
        let place = self.refusal.filter(|refusal| [19, 20].contains(&refusal.number))?.place;
        Some((self.events[place], self.of.graph.kinds[self.events[place].vertex as usize] as usize))
    }

    fn is_refused_start(&self, s: Stretch) -> bool {
        self.refused_start().is_some_and(|(e, _)| e.vertex as usize == s.stage && e.instant as i64 == s.begin)
    }

    fn stage(&self, v: usize) -> String {
        called(self.of.names, 's', v)
    }

    fn kind(&self, k: usize) -> String {
        called(self.of.types, 't', k)
    }

    /// Each row's type and core, from the top. A start that is refused and has no core gets a row below its type's.
    fn rows(&self, bars: &[Bar]) -> Vec<(usize, usize)> {
        let cores = &self.of.graph.cores;
        let has_none = |bar: &Bar| self.is_refused_start(bar.stretch) && bar.core == cores[bar.kind] as usize;
        let is_there = self.number() == 20 || bars.iter().any(has_none);
        let more = self.refused_start().filter(|_| is_there).map(|(_, kind)| kind);
        let rows_of = |(k, &cores): (usize, &u8)| (0..cores as usize + (more == Some(k)) as usize).map(move |c| (k, c));
        cores.iter().enumerate().flat_map(rows_of).collect()
    }

    fn class(&self, s: Stretch) -> &'static str {
        let refused = self.refusal.is_some_and(|r| r.number == 21 && r.place == s.stage);
        if refused || self.is_refused_start(s) {
            "wrong"
        } else if self.path.contains(&(s.stage as u8)) {
            "path"
        } else {
            "stage"
        }
    }

    fn heading(&self) -> String {
        match self.refusal {
            Some(Refusal { number, place }) => format!("refused {number} at {place}"),
            None => format!("{}: finished at {}", self.of.called, self.finish),
        }
    }

    /// The line below the heading.
    fn saying(&self) -> String {
        let starts = |why: &str| {
            let event = self.refused_start().expect("a start is at fault").0;
            format!("{} starts at {}, {why}", self.stage(event.vertex as usize), event.instant)
        };
        match self.refusal {
            Some(Refusal { number: 19, .. }) => starts("before a stage that it waits for has finished"),
            Some(Refusal { number: 20, .. }) => starts("where more stages run than its type has cores"),
            Some(Refusal { number: 21, place }) => format!("{} ran longer than its WCET", self.stage(place)),
            Some(Refusal { place, .. }) => format!("at {place} a core is idle while a stage of its type is ready"),
            None => {
                let second = self.second.map_or(String::new(), |ticks| format!(", by {ticks} (NEW-B-2)"));
                let any = "any work-conserving schedule, any times up to the WCETs";
                format!("{any}: finished by {} (NEW-B-1){second}", self.new)
            }
        }
    }

    /// The upright lines: class, label and tick.
    fn lines(&self) -> Vec<(&'static str, &'static str, i64)> {
        match self.refusal {
            Some(Refusal { number: 21, .. }) => vec![],
            Some(Refusal { number: 22, place }) => vec![("new", "refused at", place as i64)],
            Some(_) => {
                let at = self.refused_start().expect("a start is at fault").0.instant;
                vec![("new", "refused at", at as i64)]
            }
            None => {
                let second = self.second.map(|ticks| ("second", "NEW-B-2", ticks));
                let both = [("finish", "finish", self.finish), ("new", "NEW-B-1", self.new)];
                both.into_iter().chain(second).collect()
            }
        }
    }

    /// What the signs mean: class and words.
    fn signs(&self) -> Vec<(&'static str, &'static str)> {
        let mut signs = vec![("path", "a stage of the bound's path"), ("stage", "another stage")];
        match self.number() {
            0 => {
                signs.extend([("finish", "finish"), ("new", "NEW-B-1, whole ticks")]);
                signs.extend(self.second.map(|_| ("second", "NEW-B-2, whole ticks")));
            }
            22 => signs.push(("new", "where it is refused")),
            _ => signs.push(("wrong", "what is refused")),
        }
        signs
    }
}

/// A whole number, written as it should be.
fn number(element: &Element, key: &str) -> Judged<i64> {
    let written = element.get(key).ok_or_else(|| format!("{} without {key}", element.name))?;
    let value = written.parse().ok().filter(|value: &i64| value.to_string() == written);
    value.ok_or_else(|| format!("{key} is {written:?}"))
}

fn numbers<const N: usize>(element: &Element, keys: [&str; N]) -> Judged<[i64; N]> {
    let mut all = [0; N];
    for (value, key) in all.iter_mut().zip(keys) {
        *value = number(element, key)?;
    }
    Ok(all)
}

/// The corners of what is drawn in ticks, which are no lengths: a browser draws lengths above 33,554,429 as that one.
fn corners<const N: usize>(element: &Element) -> Judged<[[i64; 2]; N]> {
    let written = element.get("points").ok_or_else(|| format!("{} without points", element.name))?;
    let corner = |pair: &str| {
        let (x, y) = pair.split_once(',')?;
        let corner = [x.parse().ok()?, y.parse().ok()?];
        (format!("{},{}", corner[0], corner[1]) == pair).then_some(corner)
    };
    let all: Option<Vec<[i64; 2]>> = written.split(' ').map(corner).collect();
    all.and_then(|all| all.try_into().ok()).ok_or_else(|| format!("points {written:?}"))
}

/// A rectangle that is no bar, or the box of a text.
#[derive(Clone, Copy, Debug)]
struct Area {
    left: f64,
    top: f64,
    right: f64,
    bottom: f64,
}

impl Area {
    fn new([x, y, width, height]: [i64; 4]) -> Area {
        Area { left: x as f64, top: y as f64, right: (x + width) as f64, bottom: (y + height) as f64 }
    }

    fn holds(&self, other: &Area) -> bool {
        self.left <= other.left && other.right <= self.right && self.top <= other.top && other.bottom <= self.bottom
    }

    fn meets(&self, other: &Area) -> bool {
        self.left < other.right && other.left < self.right && self.top < other.bottom && other.top < self.bottom
    }
}

/// How many letters of one width a text is wide: a character of three or four bytes counts as two.
fn cells(text: &str) -> usize {
    text.chars().map(|c| if c.len_utf8() < 3 { 1 } else { 2 }).sum()
}

/// As much of a name as has room in so many.
fn front(name: &str, room: usize) -> &str {
    let ends = name.char_indices().map(|(i, c)| i + c.len_utf8());
    ends.rev().find(|&end| cells(&name[..end]) <= room).map_or("", |end| &name[..end])
}

#[derive(Debug)]
struct Words {
    class: String,
    x: f64,
    y: f64,
    text: String,
}

impl Words {
    fn of(element: &Element) -> Judged<Words> {
        let [x, y] = numbers(element, ["x", "y"])?;
        wanted(element.elements().next().is_none(), || "an element in a text".to_string())?;
        Ok(Words { class: element.class().to_string(), x: x as f64, y: y as f64, text: element.text() })
    }

    /// By the width of DejaVu Sans Mono's letters, 0.602 of their size.
    fn area(&self) -> Area {
        let size = match &self.class[..] {
            "heading" => 15.0,
            "name" => 10.0,
            _ => 11.0,
        };
        let width = cells(&self.text) as f64 * 0.602 * size;
        let left = match &self.class[..] {
            "end" => self.x - width,
            "mid" => self.x - width / 2.0,
            _ => self.x,
        };
        Area { left, top: self.y - 0.75 * size, right: left + width, bottom: self.y + 0.2 * size }
    }
}

/// Takes the one text of these for which this holds.
fn taken(texts: &mut Vec<Words>, what: &str, holds: impl Fn(&Words) -> bool) -> Judged<Words> {
    let places: Vec<usize> = (0..texts.len()).filter(|&i| holds(&texts[i])).collect();
    wanted(places.len() == 1, || format!("{} texts for {what}", places.len()))?;
    Ok(texts.remove(places[0]))
}

/// The picture's frame: its page, the plot inside it whose breadth is in ticks, and all texts that nothing has asked for yet.
struct Picture<'a> {
    root: &'a Element,
    plot: &'a Element,
    page: Area,
    inner: Area,
    span: i64,
    texts: Vec<Words>,
}

const XMLNS: &str = "http://www.w3.org/2000/svg";

impl Picture<'_> {
    fn of(root: &Element) -> Judged<Picture<'_>> {
        let [width, height] = numbers(root, ["width", "height"])?;
        wanted(root.name == "svg" && root.get("xmlns") == Some(XMLNS), || "no SVG".to_string())?;
        wanted(root.get("viewBox") == Some(&format!("0 0 {width} {height}")), || "the page is scaled".to_string())?;
        let plots: Vec<&Element> = root.elements().filter(|e| e.name == "svg").collect();
        let &[plot] = &plots[..] else { return Err(format!("{} plots", plots.len())) };
        let at = numbers(plot, ["x", "y", "width", "height"])?;
        let view = plot.get("viewBox").and_then(|view| view.strip_prefix("0 0 ")?.split_once(' '));
        let (span, high) = view.ok_or("the plot's view")?;
        wanted(high == at[3].to_string(), || "the plot's rows are scaled".to_string())?;
        wanted(plot.get("preserveAspectRatio") == Some("none"), || "the plot's ticks aren't scaled".to_string())?;
        let texts = root.elements().filter(|e| e.name == "text").map(Words::of).collect::<Judged<_>>()?;
        Ok(Picture {
            root,
            plot,
            page: Area::new([0, 0, width, height]),
            inner: Area::new(at),
            span: span.parse().ok().filter(|&s: &i64| s > 0).ok_or("the plot's span")?,
            texts,
        })
    }

    /// Where on the page a tick is.
    fn at(&self, tick: i64) -> f64 {
        self.inner.left + tick as f64 * (self.inner.right - self.inner.left) / self.span as f64
    }

    fn all(&self, name: &'static str, class: &'static str) -> impl Iterator<Item = &Element> {
        self.root.elements().filter(move |e| e.name == name && e.class() == class)
    }
}

/// A bar, and where on the page it is.
struct Bar<'a> {
    element: &'a Element,
    stretch: Stretch,
    kind: usize,
    core: usize,
    area: Area,
}

fn bar<'a>(picture: &Picture, element: &'a Element) -> Judged<Bar<'a>> {
    let [[begin, y], [end, below], third, fourth] = corners(element)?;
    let high = third[1] - y;
    wanted(below == y && third == [end, y + high] && fourth == [begin, y + high], || {
        "a bar is no rectangle".to_string()
    })?;
    let [stage, kind, core] = numbers(element, ["data-stage", "data-type", "data-core"])?;
    let top = picture.inner.top + y as f64;
    Ok(Bar {
        element,
        stretch: Stretch { stage: stage as usize, begin, end },
        kind: kind as usize,
        core: core as usize,
        area: Area { left: picture.at(begin), top, right: picture.at(end), bottom: top + high as f64 },
    })
}

/// Only what can be drawn, each class with its rule: a picture has no scripts, no links and no text beside its texts.
fn is_plain(element: &Element, style: &str) -> Judged<()> {
    const ELEMENTS: &str = "svg style rect line polygon polyline text title";
    const KEYS: &str =
        "xmlns width height viewBox class x y x1 y1 x2 y2 points preserveAspectRatio overflow data-stage data-type data-core";
    wanted(ELEMENTS.split(' ').any(|name| name == element.name), || format!("an element {}", element.name))?;
    let other = element.keys().find(|key| !KEYS.split(' ').any(|known| known == *key));
    wanted(other.is_none(), || format!("an attribute {other:?}"))?;
    let class = element.class();
    wanted(class.is_empty() || style.contains(&format!("\n.{class} {{")), || format!("class {class} has no rule"))?;
    let is_text = ["style", "text", "title"].contains(&&element.name[..]);
    wanted(is_text || element.text().trim().is_empty(), || format!("text in {}", element.name))?;
    element.elements().try_for_each(|inside| is_plain(inside, style))
}

/// The bars are the log's stretches, each with the words that it shows when it is pointed at.
fn judge_bars(should: &Should, bars: &[Bar]) -> Judged<()> {
    let mut drawn: Vec<Stretch> = bars.iter().map(|bar| bar.stretch).collect();
    drawn.sort();
    wanted(drawn.windows(2).all(|two| two[0] != two[1]), || "a bar twice".to_string())?;
    let other = drawn.iter().find(|s| !should.stretches.contains(s));
    wanted(other.is_none(), || format!("a bar that is no stretch: {other:?}"))?;
    for &s in should.stretches.iter().filter(|s| !drawn.contains(s)) {
        wanted(has_no_core(should, bars, s), || format!("no bar for {s:?}"))?;
    }
    for bar in bars {
        let (s, graph) = (bar.stretch, should.of.graph);
        wanted(bar.kind == graph.kinds[s.stage] as usize, || format!("another type: {s:?}"))?;
        let time: i64 = should.stretches.iter().filter(|t| t.stage == s.stage).map(|t| t.end - t.begin).sum();
        let core =
            if bar.core < graph.cores[bar.kind] as usize { bar.core.to_string() } else { "without a core".to_string() };
        let title = format!(
            "{} on {} {core}: from {} to {}, time {time}, WCET {}",
            should.stage(s.stage),
            should.kind(bar.kind),
            s.begin,
            s.end,
            graph.wcets[s.stage]
        );
        let said: Vec<String> = bar.element.elements().map(|e| format!("{} {}", e.name, e.text())).collect();
        wanted(said == [format!("title {title}")], || format!("{said:?} and not {title:?}"))?;
        let class = should.class(s);
        wanted(bar.element.class() == class, || format!("not {class}: {s:?}"))?;
    }
    Ok(())
}

/// Whether a stretch of a refused log began, with those before it that it goes on from, where all cores of its type were taken.
fn has_no_core(should: &Should, bars: &[Bar], mut s: Stretch) -> bool {
    while let Some(before) = should.stretches.iter().find(|t| t.stage == s.stage && t.end == s.begin) {
        s = *before;
    }
    let kind = should.of.graph.kinds[s.stage] as usize;
    let cores = should.of.graph.cores[kind] as usize;
    let runs =
        |bar: &&Bar| bar.kind == kind && bar.core < cores && (bar.stretch.begin..bar.stretch.end).contains(&s.begin);
    [19, 20].contains(&should.number()) && bars.iter().filter(runs).count() == cores
}

/// No core has two stages at once, and a stage that goes on stays on its core.
fn judge_cores(should: &Should, bars: &[Bar]) -> Judged<()> {
    let bare = bars.iter().filter(|bar| bar.core == should.of.graph.cores[bar.kind] as usize).count();
    wanted(bare <= 1 && (bare == 1 || should.number() != 20), || format!("{bare} bars without a core"))?;
    for bar in bars {
        let cores = should.of.graph.cores[bar.kind] as usize;
        let (s, core) = (bar.stretch, bar.core);
        // a start that 20 points at has none, but where it goes on from a core of its own: then another at that instant has none; one that 19
        // points at may have none
        let goes_on = |s: Stretch| should.stretches.iter().any(|t| t.stage == s.stage && t.end == s.begin);
        let stands_in =
            |r: &Bar| should.is_refused_start(r.stretch) && goes_on(r.stretch) && r.stretch.begin == s.begin;
        let is_shown = should.is_refused_start(s) || should.number() == 20 && bars.iter().any(stands_in);
        let has_none = core == cores && is_shown && has_no_core(should, bars, s);
        let must = should.number() == 20 && should.is_refused_start(s) && !goes_on(s);
        wanted(if must { has_none } else { has_none || core < cores }, || format!("core {core}: {s:?}"))?;
        for other in bars.iter().filter(|other| other.kind == bar.kind) {
            let t = other.stretch;
            let at_once = other.core == core && s != t && s.begin < t.end && t.begin < s.end;
            wanted(!at_once, || format!("both on core {core}: {s:?} and {t:?}"))?;
            let moves = s.stage == t.stage && s.end == t.begin && other.core != core;
            wanted(!moves, || format!("goes on elsewhere: {s:?} and {t:?}"))?;
        }
    }
    Ok(())
}

/// Rows from the top in the order of types and cores, each with its label, and each bar in its own.
fn judge_rows(should: &Should, picture: &mut Picture, bars: &[Bar]) -> Judged<()> {
    let mut areas = vec![];
    for row in picture.all("rect", "row") {
        areas.push(Area::new(numbers(row, ["x", "y", "width", "height"])?));
    }
    let rows = should.rows(bars);
    wanted(areas.len() == rows.len(), || format!("{} rows", areas.len()))?;
    wanted(areas.windows(2).all(|two| two[0].bottom <= two[1].top), || "rows on each other".to_string())?;
    for (area, &(kind, core)) in areas.iter().zip(&rows) {
        let inner = picture.inner;
        wanted(inner.holds(area) && area.left == inner.left && area.right == inner.right, || "a row".to_string())?;
        let label = if core < should.of.graph.cores[kind] as usize {
            format!("{} {core}", front(&should.kind(kind), 19))
        } else {
            "no core".to_string()
        };
        let is_beside = |w: &Words| w.class == "end" && w.x < area.left && area.top < w.y && w.y < area.bottom;
        let words = taken(&mut picture.texts, "a row", is_beside)?;
        wanted(words.text == label, || format!("the row {:?} and not {label:?}", words.text))?;
    }
    for bar in bars {
        let place = rows.iter().position(|&row| row == (bar.kind, bar.core));
        let holds = place.is_some_and(|k| areas[k].top <= bar.area.top && bar.area.bottom <= areas[k].bottom);
        wanted(holds && bar.area.top < bar.area.bottom, || format!("not in its row: {:?}", bar.stretch))?;
    }
    Ok(())
}

/// The upright lines at their ticks, each from above the plot to its foot, with its label to the left of its top.
fn judge_lines(should: &Should, picture: &mut Picture) -> Judged<()> {
    let mut lines = vec![];
    for line in picture.plot.elements().filter(|e| e.name == "polyline") {
        let [[x1, y1], [x2, y2]] = corners(line)?;
        let high = (picture.inner.bottom - picture.inner.top) as i64;
        wanted(x1 == x2 && y1 < 0 && y2 == high, || format!("the line {} from {x1} {y1} to {x2} {y2}", line.class()))?;
        lines.push((line.class(), x1, picture.inner.top + y1 as f64));
    }
    wanted(lines.len() == should.lines().len(), || format!("{} lines", lines.len()))?;
    for (class, label, tick) in should.lines() {
        let found = lines.iter().find(|line| line.0 == class && line.1 == tick);
        let &(_, _, top) = found.ok_or_else(|| format!("no line {class} at {tick}"))?;
        let (label, x) = (format!("{label} {tick}"), picture.at(tick));
        let foot = picture.inner.top;
        let is_beside =
            |w: &Words| w.class == "end" && w.text == label && x - 12.0 < w.x && w.x < x && top < w.y && w.y < foot;
        taken(&mut picture.texts, &label, is_beside)?;
    }
    Ok(())
}

/// The axis: from 0 to the span in equal steps of a round number, as far as is needed and no step further.
fn judge_axis(should: &Should, picture: &mut Picture) -> Judged<()> {
    let bounds = [should.new, should.second.unwrap_or(0)].map(|ticks| if should.refusal.is_some() { 0 } else { ticks });
    let need = bounds.into_iter().fold(should.finish.max(1), i64::max);
    let (marks, others) = std::mem::take(&mut picture.texts).into_iter().partition(|w| w.class == "mid");
    picture.texts = others;
    let marks: Vec<Words> = marks;
    let ticks: Vec<i64> = marks.iter().filter_map(|w| w.text.parse().ok()).collect();
    wanted(ticks.len() == marks.len() && ticks.len() > 1, || "the axis has other words".to_string())?;
    let step = ticks[1];
    let round = step.to_string();
    let is_round = ["1", "2", "5"].contains(&&round[..1]) && round[1..].bytes().all(|b| b == b'0');
    wanted(is_round, || format!("steps of {step}"))?;
    let last = (ticks.len() - 1) as i64;
    let is_even = (0..=last).zip(&ticks).all(|(i, &tick)| tick == i * step) && last * step == picture.span;
    wanted(is_even, || format!("the axis {ticks:?} of {}", picture.span))?;
    wanted(picture.span >= need && picture.span - need < step, || format!("{} for {need}", picture.span))?;
    let mut grid = vec![];
    for line in picture.all("line", "grid") {
        let [x1, x2] = numbers(line, ["x1", "x2"])?;
        wanted(x1 == x2, || "a grid line is not upright".to_string())?;
        grid.push(x1 as f64);
    }
    for (mark, &tick) in marks.iter().zip(&ticks) {
        let is_there =
            grid.contains(&mark.x) && (mark.x - picture.at(tick)).abs() <= 1.0 && mark.y > picture.inner.bottom;
        wanted(is_there, || format!("the mark of {tick}"))?;
    }
    wanted(grid.len() == marks.len(), || format!("{} grid lines", grid.len()))?;
    taken(&mut picture.texts, "ticks", |w| w.text == "ticks").map(drop)
}

/// A bar has a beginning of its stage's name, as far as there is room, and all of it where all has room.
fn judge_names(should: &Should, picture: &mut Picture, bars: &[Bar]) -> Judged<()> {
    let (mut names, others): (Vec<Words>, Vec<Words>) =
        std::mem::take(&mut picture.texts).into_iter().partition(|w| w.class == "name");
    picture.texts = others;
    for bar in bars {
        let (name, area) = (should.stage(bar.stretch.stage), bar.area);
        let is_inside = |w: &Words| area.left <= w.x && w.x < area.right && area.top < w.y && w.y < area.bottom;
        let Some(place) = names.iter().position(is_inside) else {
            let first = front(&name, 2).chars().next().map_or(0, |c| cells(&c.to_string()));
            wanted(area.right - area.left < 6.0 + first as f64 * 6.2, || format!("no name in {:?}", bar.stretch))?;
            continue;
        };
        let words = names.remove(place);
        let room = area.right - words.x - words.area().right + words.area().left;
        wanted(!words.text.is_empty() && name.starts_with(&words.text), || format!("{:?} in {name:?}", words.text))?;
        wanted(room >= 0.0, || format!("{:?} leaves its bar", words.text))?;
        let is_cut = words.text != name;
        wanted(!is_cut || room < 6.2 * 3.0 + 4.0, || format!("only {:?} of {name:?}", words.text))?;
    }
    wanted(names.is_empty(), || format!("names in no bar: {names:?}"))
}

/// What the signs mean: each sign with its words to the right.
fn judge_signs(should: &Should, picture: &mut Picture) -> Judged<()> {
    let mut signs = vec![];
    for element in picture.root.elements() {
        match (&element.name[..], element.class()) {
            ("rect", "page" | "row") | ("line", "grid") => {}
            ("rect", class) => {
                signs.push((class, Area::new(numbers(element, ["x", "y", "width", "height"])?)));
            }
            ("line", class) => {
                let [x1, y1, x2, y2] = numbers(element, ["x1", "y1", "x2", "y2"])?;
                signs.push((class, Area::new([x1, y1 - 8, x2 - x1, y2 - y1 + 16])));
            }
            _ => {}
        }
    }
    wanted(signs.len() == should.signs().len(), || format!("{} signs", signs.len()))?;
    for (class, words) in should.signs() {
        let sign = signs.iter().find(|sign| sign.0 == class).ok_or_else(|| format!("no sign {class}"))?.1;
        wanted(sign.top > picture.inner.bottom && picture.page.holds(&sign), || format!("the sign {class}"))?;
        let is_beside = |w: &Words| {
            w.text == words && sign.right < w.x && w.x < sign.right + 12.0 && sign.top < w.y && w.y < sign.bottom
        };
        taken(&mut picture.texts, words, is_beside)?;
    }
    Ok(())
}

/// Nothing leaves the page, and no two texts overlap.
fn judge_page(picture: &Picture, bars: &[Bar]) -> Judged<()> {
    let page = picture.page;
    let paper = picture.all("rect", "page").next().ok_or("no page")?;
    let size = numbers(paper, ["width", "height"])?;
    wanted(size.map(|s| s as f64) == [page.right, page.bottom], || "the page is not all of it".to_string())?;
    let beyond = bars.iter().find(|bar| !picture.inner.holds(&bar.area));
    wanted(beyond.is_none(), || format!("leaves the plot: {:?}", beyond.map(|bar| bar.stretch)))?;
    wanted(page.holds(&picture.inner), || "the plot leaves the page".to_string())?;
    for line in picture.plot.elements().filter(|e| e.name == "polyline") {
        let [[x, y], _] = corners(line)?;
        wanted((0..=picture.span).contains(&x) && picture.inner.top + y as f64 >= 0.0, || "a line leaves".to_string())?;
    }
    for (i, words) in picture.texts.iter().enumerate() {
        let area = words.area();
        wanted(page.holds(&area), || format!("leaves the page: {words:?}"))?;
        let other = picture.texts[..i].iter().find(|other| other.area().meets(&area));
        wanted(other.is_none(), || format!("overlap: {words:?} and {other:?}"))?;
    }
    Ok(())
}

/// Whether the bytes are the chart, and where they aren't, why. The exit status is 1 where the log is refused.
pub fn check(svg: &[u8], drawn: &Drawn) -> Judged<&'static [u8]> {
    let root = xml::read(svg)?;
    let should = Should::of(drawn);
    let style: String = root.elements().filter(|e| e.name == "style").map(|e| e.text()).collect();
    is_plain(&root, &style)?;
    let mut picture = Picture::of(&root)?;
    let bars = picture.plot.elements().filter(|e| e.name == "polygon");
    let bars: Vec<Bar> = bars.map(|element| bar(&picture, element)).collect::<Judged<_>>()?;
    judge_page(&picture, &bars)?;
    judge_bars(&should, &bars)?;
    judge_cores(&should, &bars)?;
    judge_rows(&should, &mut picture, &bars)?;
    let heading = should.heading();
    taken(&mut picture.texts, &heading, |w| w.class == "heading" && w.text == heading)?;
    let saying = should.saying();
    taken(&mut picture.texts, &saying, |w| w.class.is_empty() && w.text == saying)?;
    judge_lines(&should, &mut picture)?;
    judge_axis(&should, &mut picture)?;
    judge_names(&should, &mut picture, &bars)?;
    judge_signs(&should, &mut picture)?;
    wanted(picture.texts.is_empty(), || format!("other texts: {:?}", picture.texts))?;
    Ok(if should.refusal.is_some() { b"1" } else { b"0" })
}
