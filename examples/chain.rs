//! An example: the lines of standard input are an error and its causes, and each cause is written one step further in.
#![tactic(auto)]

use console_reporter::prelude::*;
use console_reporter::write_str::WriteFault;
use std::alloc::Global;
use std::io;

fn main(rt: HostRuntime) -> Result<(), ReportError> {
    let text = io::read_to_string(rt.alloc(), rt.reader())?;
    let Some(chain) = chain_of(rt.alloc(), text.as_str())? else {
        return Ok(());
    };
    let mut out = TextBuffer::new(rt.alloc(), io::writer(&rt))?;
    Ok(write_chain(&mut out, &chain)?)
}

// The error of the first line, with the others as its causes.
fn chain_of(alloc: Global, text: &str) -> Result<Option<ErrorChain>, OutOfMemory> {
    let mut lines = text.lines();
    let Some(message) = lines.next() else {
        return Ok(None);
    };
    let message = DescriptionText::new(alloc, message)?;
    let mut causes = Vec::new(alloc);
    for cause in lines {
        causes.push(DescriptionText::new(alloc, cause)?)?;
    }
    Ok(Some(ErrorChain::new(alloc, message, causes)?))
}

// Writes an error, and its causes as a list below it. A `|` in a text ends a line of it.
fn write_chain<W: WriteStr>(out: &mut W, chain: &ErrorChain) -> Result<(), WriteFault> {
    write_item(out, "error: ", "       ", chain.message())?;
    for cause in chain.causes() {
        write_item(
            &mut indented(out).with_str("  "),
            "- ",
            "  ",
            cause.as_str(),
        )?;
    }
    out.write_str_flush()
}

// Writes a text whose first line follows a mark, and whose other lines stand below that line. An indentation of an
// indentation is a writer like any other.
fn write_item<W: WriteStr>(
    out: &mut W,
    mark: &str,
    margin: &str,
    text: &str,
) -> Result<(), WriteFault> {
    out.write_str(mark)?;
    let mut hanging = indented(out).with_str(margin).skip_initial();
    for line in text.split('|') {
        hanging.write_str(line)?;
        hanging.write_str("\n")?;
    }
    Ok(())
}
