// Measures charts as the browser lays them out. `charts` has the SVG of each by its name, in base 64; what is found goes into the page, a line for each
// thing, and a last line that counts what was looked at.
const found = []
const counts = { pictures: 0, texts: 0, bars: 0 }

// by how many pixels two boxes overlap, across or down, whichever is less
function overlap(a, b) {
    const across = Math.min(a.right, b.right) - Math.max(a.left, b.left)
    const down = Math.min(a.bottom, b.bottom) - Math.max(a.top, b.top)
    return Math.max(0, Math.min(across, down))
}

function is_inside(a, b, by) {
    return a.left >= b.left - by && a.right <= b.right + by && a.top >= b.top - by && a.bottom <= b.bottom + by
}

// an element with its box, and words to say which it is
function boxed(element) {
    const box = element.getBoundingClientRect()
    const place = [box.left, box.top, box.right, box.bottom].map(n => Math.round(10 * n) / 10).join(" ")
    const words = element.localName === "text" ? JSON.stringify(element.textContent) : element.localName + "." + element.getAttribute("class")
    const stage = element.dataset.stage === undefined ? "" : " of stage " + element.dataset.stage
    return { element, box, said: words + stage + " [" + place + "]" }
}

function measured(name, bytes) {
    const say = words => found.push(name + ": " + words)
    const text = new TextDecoder("utf-8", { fatal: true }).decode(bytes)
    const parsed = new DOMParser().parseFromString(text, "image/svg+xml")
    if (parsed.querySelector("parsererror")) return say("no XML: " + parsed.querySelector("parsererror").textContent.replace(/\s+/g, " "))
    // in a tree of its own, so that its rules are its own too
    const host = document.body.appendChild(document.createElement("div"))
    const svg = host.attachShadow({ mode: "open" }).appendChild(document.importNode(parsed.documentElement, true))
    svg.style.display = "block"
    const all = selector => [...svg.querySelectorAll(selector)].map(boxed)
    const origin = svg.getBoundingClientRect()
    const texts = all("text"), bars = all("polygon[data-stage]"), rows = all("rect.row"), lines = all("line, polyline")
    counts.pictures++
    counts.texts += texts.length
    counts.bars += bars.length

    for (const one of all("text, rect, line, polygon, polyline, svg")) if (!is_inside(one.box, origin, 0.5)) say("leaves the page: " + one.said)
    if (!texts.length || !rows.length) say("nothing is drawn")

    texts.forEach((one, i) => {
        if (one.box.width === 0) say("an empty text: " + one.said)
        for (const other of texts.slice(0, i)) if (overlap(one.box, other.box) > 0) say("texts overlap: " + one.said + " and " + other.said)
    })

    // bars of a row, and the names in them
    const of_row = {}
    for (const bar of bars) (of_row[bar.element.dataset.type + " " + bar.element.dataset.core] ??= []).push(bar)
    for (const row of Object.values(of_row)) {
        row.sort((a, b) => a.box.left - b.box.left)
        row.slice(1).forEach((bar, i) => {
            if (row[i].box.right - bar.box.left > 0.5) say("bars overlap: " + row[i].said + " and " + bar.said)
            if (Math.abs(row[i].box.top - bar.box.top) > 0.5) say("bars of one core at two heights: " + row[i].said + " and " + bar.said)
        })
    }
    for (const bar of bars) if (!rows.some(row => is_inside(bar.box, row.box, 0.5))) say("a bar in no row: " + bar.said)
    for (const one of texts.filter(t => t.element.classList.contains("name"))) {
        const middle = (one.box.top + one.box.bottom) / 2
        const bar = bars.find(b => b.box.left <= one.box.left && one.box.left < b.box.right && b.box.top < middle && middle < b.box.bottom)
        if (!bar) say("a name in no bar: " + one.said)
        else if (!is_inside(one.box, bar.box, 1)) say("a name leaves its bar: " + one.said + " and " + bar.said)
        else if (!bar.element.querySelector("title").textContent.startsWith(one.element.textContent)) say("another name in a bar: " + one.said)
    }

    // what stands beside the plot, above it and below it
    const plot = svg.querySelector("svg").getScreenCTM()
    const left = Math.min(...rows.map(row => row.box.left)), top = Math.min(...rows.map(row => row.box.top))
    if (Math.abs(plot.e - left) > 0.5) say("the plot begins at " + plot.e + ", its rows at " + left)
    const beside = texts.filter(t => t.element.classList.contains("end") && rows.some(row => overlap({ ...row.box.toJSON(), left: 0 }, t.box) > 3))
    if (beside.length !== rows.length) say(beside.length + " labels for " + rows.length + " rows")
    for (const one of beside) if (one.box.right > left) say("a label reaches into the plot: " + one.said)
    for (const one of texts.filter(t => t.box.bottom <= top + 3)) {
        for (const bar of [...bars, ...rows]) if (overlap(one.box, bar.box) > 0) say("a label on a bar or row: " + one.said + " and " + bar.said)
        for (const line of lines) {
            const is_crossed = one.box.left < line.box.left && line.box.left < one.box.right && line.box.top < one.box.bottom && one.box.top < line.box.bottom
            if (is_crossed) say("a line through a text: " + one.said + " and " + line.said)
        }
    }
    for (const one of texts.filter(t => !t.element.classList.contains("name"))) {
        for (const box of [...bars, ...all("svg > rect:not(.page):not(.row)")]) if (overlap(one.box, box.box) > 0) say("a text on a bar or sign: " + one.said + " and " + box.said)
    }
}

for (const [name, coded] of Object.entries(charts)) {
    try {
        measured(name, Uint8Array.from(atob(coded), c => c.charCodeAt(0)))
    } catch (error) {
        found.push(name + ": " + error)
    }
}
found.push("measured " + counts.pictures + " pictures, " + counts.texts + " texts, " + counts.bars + " bars")
const pre = document.body.appendChild(document.createElement("pre"))
pre.id = "findings"
pre.textContent = "\n" + found.join("\n") + "\n"
