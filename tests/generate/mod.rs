//! Requests for the planner, good, bad and at every limit, all from a seed.
//!
//!   random     the generator of numbers
//!   graphs     accepted graphs
//!   ways       accepted graphs with a given number of complete paths
//!   lists      the writer's lists, and their file without any judging
//!   faults     a fault planted for each number that says no
//!   damage     blind damage to a file
//!   runs       execution times and run records, fitting and not
//!   miscounts  numbers of unfinished predecessors counted wrongly
//!   numbers    the runs and records of docs/orders/08.md, and records one step away from good ones
//!   better     pairs of graphs of which the second is better
//!   altered    a vertex and a new WCET for it, fitting and not
//!   late       the tick that a run is asked to end by
//!   conserving work-conserving schedules that need not be list schedules
//!   frames     the recorded frames of docs/orders/07.md
//!   logs       logs of frames, good and with a fault planted for each number that says no
//!   stg        Standard Task Graph texts, good and with a fault planted for each number that says no
//!   texts      the texts of docs/orders/09.md, and every limit of a text
//!   edited     files as scripts leave them: with what is mended, with what is left, and with what is refused
//!   mends      the files of docs/orders/12.md, and every limit of a file to be mended
//!   enough     a type and a limit for which enough cores are asked, fitting and not
//!   request    how a request travels
//!   catalogue  the worked cases and every limit, the same for each seed
//!   malformed  requests that are none
//!   stream     the request of each place for a seed

pub mod altered;
pub mod better;
pub mod catalogue;
pub mod conserving;
pub mod damage;
pub mod edited;
pub mod enough;
pub mod faults;
pub mod frames;
pub mod graphs;
pub mod late;
pub mod lists;
pub mod logs;
pub mod malformed;
pub mod mends;
pub mod miscounts;
pub mod numbers;
pub mod random;
pub mod request;
pub mod runs;
pub mod stg;
pub mod stream;
pub mod texts;
pub mod ways;
