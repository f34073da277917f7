//! Where the reading begins. What is listed here is what somebody outside asks for; everything else is reached from it.

/// For whom a root is.
#[derive(Clone, Copy, PartialEq, Eq, Debug)]
pub enum Part {
    /// the customers' calls, and the demands
    Calls,
    /// the programs that come with the library
    Programs,
}

/// What part of a crate is a root.
#[derive(Clone, Copy, PartialEq, Eq, Debug)]
pub enum Start {
    /// the contracts of what is marked `#[unsafe(no_mangle)] pub extern "C" fn`
    Exported,
    /// the contracts of every `pub fn`
    All,
    /// the contracts of these functions
    Functions(&'static [&'static str]),
    /// everything that this file of specs/ defines
    Definitions(&'static str),
    /// the contracts of what `src/main.rt` calls
    Called,
}

pub struct Root {
    /// the crate; `PROGRAMS` for each crate that has a `src/main.rt`
    pub krate: &'static str,
    pub start: Start,
    pub part: Part,
    pub reason: &'static str,
}

pub const PROGRAMS: &str = "*";

const fn root(krate: &'static str, start: Start, part: Part, reason: &'static str) -> Root {
    Root { krate, start, part, reason }
}

pub const ROOTS: &[Root] = &[
    root("brazulint", Start::Exported, Part::Calls, "the calls of the static library"),
    root("demands", Start::Definitions("Demands"), Part::Calls, "document 01's demands, and what is held beyond them"),
    root("demands", Start::Definitions("Live"), Part::Calls, "a link that never ends, piece by piece"),
    root("demands", Start::Definitions("Examples"), Part::Calls, "examples that meet each demand, with their numbers"),
    root("face", Start::Definitions("Face"), Part::Calls, "what a caller from C has, number by number"),
    root("word", Start::Definitions("Values"), Part::Calls, "document 01's values, beside what the definitions give"),
    root("stepping", Start::All, Part::Calls, "the reader that holds a recording and its place, which C does not get"),
    root(
        "symbol",
        Start::Functions(&["before_fresh_signal"]),
        Part::Calls,
        "the disparity at which a signal begins; C begins with `false`",
    ),
    root("word", Start::Functions(&["line_words", "read_line_words", "repair_timing_word"]), Part::Calls, "the words of a stream"),
    root("crcc", Start::Functions(&["crcc_of"]), Part::Calls, "the CRCC of a run of words"),
    root(
        "line",
        Start::Functions(&["stream_line_of", "basic_line_of"]),
        Part::Calls,
        "the stream line that carries a line of a basic image, and back",
    ),
    root(
        "picture",
        Start::Functions(&["place_of", "picture_line_on", "row_on"]),
        Part::Calls,
        "the place of a sample, the way back to its line, and the choice of row",
    ),
    root("way_back", Start::Functions(&["picture_line_of"]), Part::Calls, "from a link, a stream and a stream line to the picture"),
    root("dividing", Start::Functions(&["split", "join"]), Part::Calls, "rows divided and joined"),
    root("span", Start::Functions(&["lengths_of", "fill_blanking"]), Part::Calls, "the lengths of a format, and a row of blanking"),
    root("send", Start::Functions(&["send"]), Part::Calls, "a span sent"),
    root("read", Start::Functions(&["read", "judge"]), Part::Calls, "a span read, and judged without rows"),
    root("finding", Start::Functions(&["find", "next_span"]), Part::Calls, "a span found, and the next one read"),
    root("decoder", Start::Functions(&["decode", "meaning_of"]), Part::Calls, "one symbol; C gets no meaning"),
    root("encoder", Start::Functions(&["encode_byte", "encode_special"]), Part::Calls, "one character; C gives it by its number"),
    root("packing", Start::Functions(&["pack", "unpack"]), Part::Calls, "two words as three bytes and back, which C does not get"),
    root(PROGRAMS, Start::Called, Part::Programs, "what a program reads and writes"),
    root("test_picture", Start::All, Part::Programs, "what the test generator and the rig send"),
    root("reception", Start::All, Part::Programs, "the receiving end of the rig"),
    root("rig", Start::All, Part::Programs, "the link with a plug that is knocked"),
    root("generate", Start::Definitions("Generated"), Part::Programs, "all that the test generator writes"),
    root("loopback", Start::Definitions("File"), Part::Programs, "the picture's file"),
    root("loopback", Start::Definitions("Frame"), Part::Programs, "the frame that the rig sends"),
    root("text", Start::All, Part::Programs, "numbers and words as the programs print them"),
];
