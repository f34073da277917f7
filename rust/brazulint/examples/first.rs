//! A line of a 120 Hz link is sent, and every span of the recording is delivered. The part between the marks stands in README.md too;
//! ./test compares them (.ci/snippets).

// begin
use brazulint::{Format, Request, StreamLine};

fn main() -> Result<(), brazulint::Refusal> {
    let format = Format::plain(Format::HZ_120, 12); // G', 4:4:4, 4K
    let (samples, symbols) = brazulint::lengths(format).result()?;
    let (picture, mut recording) = (vec![1024; samples], vec![0; symbols]);
    let request = Request::new(StreamLine(42), false); // the disparity before it; no content bytes are named
    brazulint::send(format, request, &picture, &mut recording).result()?;

    for span in brazulint::spans(format, &recording) {
        let span = span?;
        println!("stream line {} at {}, its first sample {}", span.delivery.line.0, span.place, span.rows[0]);
    }
    Ok(())
}
// end
