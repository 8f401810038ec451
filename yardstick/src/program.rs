//! What the program writes.

use crate::calls::{convert, Answer};
use crate::limits;
use crate::refusal::Refusal;
use crate::xml;

/// The program's whole output for the contents of its two files, `None` being
/// a file that cannot be read. A record file that is too long is refused
/// whatever the grammar, so of such a file any longer start will do.
pub fn program(grammar: Option<&[u8]>, record: Option<&[u8]>) -> Vec<u8> {
    let (Some(grammar), Some(record)) = (grammar, record) else {
        return b"unreadable\n".to_vec();
    };
    let mut result = vec![0; limits::PROGRAM_RESULT_BYTES];
    let answer = if record.len() > limits::PROGRAM_RECORD_BYTES {
        Answer::from(Refusal::RecordTooLong)
    } else {
        let main_table = limits::PROGRAM_MAIN_TABLE;
        convert(
            grammar,
            record,
            main_table,
            limits::GRAMMAR_TABLE,
            &mut result,
        )
    };
    let no_reading = Refusal::NoReading(0).number();
    let mut output = match answer.number {
        0 => {
            result.truncate(answer.length);
            result
        }
        number if number == no_reading => {
            xml::fail(answer.version, answer.places.fault).into_bytes()
        }
        number => format!("refused {number}").into_bytes(),
    };
    output.push(b'\n');
    output
}
