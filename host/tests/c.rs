//! The headers and the examples, by the C compiler.

use std::path::{Path, PathBuf};
use std::process::{Command, Output};

use ixml::ffi::{GateAnswer, NumberAnswer};
use ixml::{limits, Answer, Error, GateError, Progress};

const HOST: &str = env!("CARGO_MANIFEST_DIR");

fn temporary(name: &str) -> PathBuf {
    Path::new(env!("CARGO_TARGET_TMPDIR")).join(name)
}

fn run(command: &mut Command) -> Output {
    command
        .output()
        .unwrap_or_else(|error| panic!("{command:?}: {error}"))
}

/// Compiles a program, to which no compiler may have an objection.
fn compile(compiler: &[&str], source: &Path, program: &Path) {
    let output = run(Command::new(compiler[0])
        .args(&compiler[1..])
        .args(["-Wall", "-Wextra", "-Wpedantic", "-Werror", "-I"])
        .arg(Path::new(HOST).join("../include"))
        .arg(source)
        .args(["-x", "none"])
        .args([env!("IXML_ARCHIVE"), env!("IXML_GATE_ARCHIVE"), "-o"])
        .arg(program));
    let complaints = String::from_utf8_lossy(&output.stderr);
    assert!(output.status.success(), "{complaints}");
}

/// The header's name of a refusal, from the wrapper's.
fn name(number: u32) -> String {
    let answer = Answer {
        number,
        ..Answer::default()
    };
    let debug = format!("{:?}", Error::try_from(answer).expect("a refusal"));
    let words = debug.split(' ').next().expect("a word");
    let mut name = String::new();
    for character in words.chars() {
        if character.is_ascii_uppercase() && !name.is_empty() {
            name.push('_');
        }
        name.push(character.to_ascii_uppercase());
    }
    name
}

/// A program that holds the header's numbers to the wrapper's as it is
/// compiled, and makes each call.
fn program(assert: &str) -> String {
    let mut facts = vec![
        format!("IXML_GRAMMAR_BYTES == {}", limits::GRAMMAR_BYTES),
        format!("IXML_GRAMMAR_SIZE == {}", limits::GRAMMAR_SIZE),
        format!("IXML_RECORD_CHARACTERS == {}", limits::RECORD_CHARACTERS),
        format!("IXML_READING_NUMBERS == {}", limits::READING_NUMBERS),
        format!("IXML_GRAMMAR_TABLE == {}", limits::GRAMMAR_TABLE),
        format!("IXML_MAIN_TABLE == {}", limits::MAIN_TABLE),
        format!(
            "IXML_MAIN_TABLE_LENGTH(512, IXML_RECORD_CHARACTERS) == {}",
            limits::MAIN_TABLE
        ),
        "IXML_MAIN_TABLE_LENGTH(2, 1) == 6".to_string(),
        format!("IXML_CATEGORY_NOT_KNOWN == {}", ixml::Category::ALL.len()),
        format!("sizeof(ixml_answer) == {}", size_of::<Answer>()),
        format!("sizeof(ixml_progress) == {}", size_of::<Progress>()),
        format!(
            "offsetof(ixml_progress, rounds) == {}",
            std::mem::offset_of!(Progress, rounds)
        ),
        format!("IXML_STATE == {}", limits::STATE),
        "IXML_ANSWERED == 0".to_string(),
    ];
    let fields = [
        ("number", std::mem::offset_of!(Answer, number)),
        ("length", std::mem::offset_of!(Answer, length)),
        ("ambiguous", std::mem::offset_of!(Answer, ambiguous)),
        ("version", std::mem::offset_of!(Answer, version)),
    ];
    facts.extend(fields.map(|(name, place)| format!("offsetof(ixml_answer, {name}) == {place}")));
    for number in 1..=29 {
        facts.push(format!("IXML_{} == {number}", name(number)));
    }
    let facts: String = facts
        .iter()
        .map(|fact| format!("{assert}({fact}, \"{fact}\");\n"))
        .collect();
    format!(
        "#include <ixml.h>\n{facts}\
         int main(void) {{\n\
             const uint8_t grammar[4] = {{'a', ':', '.', '?'}};\n\
             const ixml_answer right = ixml_check(grammar, 3);\n\
             const ixml_answer wrong = ixml_check(grammar, 4);\n\
             const bool known = ixml_category('A') == 0;\n\
             const bool unknown = ixml_category(0x180) == IXML_CATEGORY_NOT_KNOWN;\n\
             if (right.number != IXML_ANSWERED || wrong.number != IXML_NOT_IXML) return 1;\n\
             if (right.length != 0 || right.ambiguous || right.version) return 2;\n\
             if (!known || !unknown) return 3;\n\
             static uint32_t main_table[IXML_MAIN_TABLE_LENGTH(9, 1)];\n\
             static uint32_t grammar_table[IXML_GRAMMAR_TABLE];\n\
             static const char twice[] = \"ixml version '2'. a: b; 'x'. b: 'x'.\";\n\
             const uint8_t *text = (const uint8_t *)twice;\n\
             const uint8_t record[1] = {{'x'}};\n\
             uint32_t numbers[3] = {{7, 7, 7}};\n\
             const ixml_answer read = ixml_read(text, sizeof twice - 1, record, 1,\n\
                 main_table, sizeof main_table / sizeof *main_table,\n\
                 grammar_table, IXML_GRAMMAR_TABLE, numbers, 3);\n\
             if (read.number != IXML_ANSWERED || read.length != 1) return 4;\n\
             if (!read.ambiguous || !read.version) return 5;\n\
             if (numbers[0] != 1 || numbers[1] != 7 || numbers[2] != 7) return 6;\n\
             uint8_t xml[16] = {{0}};\n\
             const ixml_answer tidied = ixml_tidy(grammar, 3, xml, 16);\n\
             if (tidied.number != IXML_ANSWERED || tidied.length != 5) return 8;\n\
             if (xml[2] != ' ' || xml[4] != '\\n' || xml[5] != 0) return 9;\n\
             xml[0] = 0;\n\
             const uint32_t list[2] = {{1, 1}};\n\
             uint64_t scratch[4];\n\
             const ixml_answer judged = ixml_judge(text, sizeof twice - 1, record, 1, list, 1,\n\
                 grammar_table, IXML_GRAMMAR_TABLE, scratch, 4, xml, 16);\n\
             const ixml_answer declined = ixml_judge(text, sizeof twice - 1, record, 1, list, 2,\n\
                 grammar_table, IXML_GRAMMAR_TABLE, scratch, 4, xml, 16);\n\
             if (judged.number != IXML_RESULT_TOO_LONG || xml[0] != 0) return 10;\n\
             if (declined.number != IXML_NO_DERIVATION || declined.version) return 11;\n\
             static uint32_t state[IXML_STATE];\n\
             ixml_progress p = ixml_start(text, sizeof twice - 1, record, 1, main_table,\n\
                 sizeof main_table / sizeof *main_table, grammar_table, IXML_GRAMMAR_TABLE, state);\n\
             while (p.answer.number == 0 && state[IXML_STATE_FINISHED] == 0) {{\n\
                 if (!p.answer.version || p.answer.ambiguous) return 12;\n\
                 p = ixml_finish_read(text, sizeof twice - 1, record, 1, main_table,\n\
                     sizeof main_table / sizeof *main_table, grammar_table,\n\
                     IXML_GRAMMAR_TABLE, state, numbers, 3);\n\
                 if (p.answer.number != IXML_NOT_YET || p.rounds != state[1]) return 13;\n\
                 p = ixml_round(text, sizeof twice - 1, record, 1, main_table,\n\
                     sizeof main_table / sizeof *main_table, grammar_table,\n\
                     IXML_GRAMMAR_TABLE, state);\n\
             }}\n\
             if (p.answer.number != 0 || p.rounds != 2) return 14;\n\
             numbers[0] = 7;\n\
             p = ixml_finish_read(text, sizeof twice - 1, record, 1, main_table,\n\
                 sizeof main_table / sizeof *main_table, grammar_table,\n\
                 IXML_GRAMMAR_TABLE, state, numbers, 3);\n\
             if (p.answer.number != 0 || p.rounds != 2 || !p.answer.ambiguous) return 15;\n\
             if (numbers[0] != 1 || numbers[1] != 7) return 16;\n\
             p = ixml_finish_convert(text, sizeof twice - 1, record, 0, main_table,\n\
                 sizeof main_table / sizeof *main_table, grammar_table,\n\
                 IXML_GRAMMAR_TABLE, state, xml, 16);\n\
             if (p.answer.number != IXML_OTHER_STATE || xml[0] != 0) return 17;\n\
             const uint8_t unruled[5] = {{'a', ':', ' ', 'b', '.'}};\n\
             const ixml_answer refused = ixml_convert(unruled, 5, record, 1, main_table, 1,\n\
                 grammar_table, IXML_GRAMMAR_TABLE, xml, 16);\n\
             return refused.number == IXML_UNDEFINED_NAME && xml[0] == 0 ? 0 : 7;\n\
         }}\n"
    )
}

/// The same for the gate's header, which stands alone.
fn gate_program(assert: &str) -> String {
    let verdict = std::mem::offset_of!(GateAnswer, verdict);
    let value = std::mem::offset_of!(NumberAnswer, value);
    let facts = [
        format!("sizeof(ixml_gate_answer) == {}", size_of::<GateAnswer>()),
        format!("offsetof(ixml_gate_answer, verdict) == {verdict}"),
        format!(
            "sizeof(ixml_number_answer) == {}",
            size_of::<NumberAnswer>()
        ),
        format!("offsetof(ixml_number_answer, value) == {value}"),
        "IXML_GATE_ANSWERED == 0 && IXML_NO_VERDICT == 0".to_string(),
        format!("IXML_UNSOUND_GATE == {}", GateError::UnsoundGate.number()),
        format!("IXML_NO_NUMBER == {}", GateError::NoNumber.number()),
        format!("IXML_OUT_OF_RANGE == {}", GateError::OutOfRange.number()),
        "IXML_INSIDE == 1 && IXML_SWAPPED == 2 && IXML_SUSPECT == 3".to_string(),
    ];
    let facts: String = facts
        .iter()
        .map(|fact| format!("{assert}({fact}, \"{fact}\");\n"))
        .collect();
    format!(
        "#include <ixml_gate.h>\n{facts}\
         int main(void) {{\n\
             const uint8_t lat[4] = {{'4', '5', '.', '5'}};\n\
             const uint8_t lon[3] = {{'-', '1', '2'}};\n\
             const ixml_gate_answer boxed = ixml_gate_box(45.5, 46, -12, -11, lat, 4, lon, 3);\n\
             const ixml_gate_answer swapped = ixml_gate_box(-12, -11, 45, 45.5, lat, 4, lon, 3);\n\
             const ixml_gate_answer band = ixml_gate_band(-12, -11, lat, 4, lon, 3);\n\
             const ixml_gate_answer backward = ixml_gate_band(2, 1, lat, 4, lon, 3);\n\
             const ixml_gate_answer anywhere = ixml_gate_anywhere(lat, 4, lon, 3);\n\
             const ixml_gate_answer no_number = ixml_gate_anywhere(lat, 3, lon, 3);\n\
             const ixml_number_answer half = ixml_number(lat, 4);\n\
             const ixml_number_answer minus = ixml_number(lon, 3);\n\
             const ixml_number_answer none = ixml_number(lon, 1);\n\
             if (boxed.number != 0 || boxed.verdict != IXML_INSIDE) return 1;\n\
             if (swapped.number != 0 || swapped.verdict != IXML_SWAPPED) return 2;\n\
             if (band.number != 0 || band.verdict != IXML_SUSPECT) return 3;\n\
             if (backward.number != IXML_UNSOUND_GATE || backward.verdict != 0) return 4;\n\
             if (anywhere.number != 0 || anywhere.verdict != IXML_INSIDE) return 5;\n\
             if (no_number.number != IXML_NO_NUMBER || no_number.verdict != 0) return 6;\n\
             if (half.number != 0 || half.value != 45.5) return 7;\n\
             if (minus.number != 0 || minus.value != -12.0) return 8;\n\
             return none.number == IXML_NO_NUMBER && none.value == 0.0 ? 0 : 9;\n\
         }}\n"
    )
}

#[test]
fn the_headers_agree_with_the_wrapper() {
    let languages: [(&str, &[&str], &str); 2] = [
        ("c", &["cc", "-std=c11"], "_Static_assert"),
        ("cc", &["c++", "-std=c++11"], "static_assert"),
    ];
    for (ending, compiler, assert) in languages {
        for (name, text) in [("header", program(assert)), ("gate", gate_program(assert))] {
            let file = format!("{name}.{ending}");
            let source = temporary(&file);
            std::fs::write(&source, text).expect("a file");
            let compiled = temporary(&format!("{file}.out"));
            compile(compiler, &source, &compiled);
            let status = run(&mut Command::new(compiled)).status;
            assert_eq!(status.code(), Some(0), "{file}");
        }
    }
}

#[test]
fn the_gate_example_judges_positions() {
    let compiled = temporary("gate-example");
    let source = Path::new(HOST).join("gate.c");
    compile(&["cc", "-std=c99"], &source, &compiled);
    let fields = ["44", "46.5", "11", "13"];
    let cases: [(&[&str], &str, i32); 5] = [
        (&["45.4375", "12.335"], "inside\n", 0),
        (&["12.335", "45.4375"], "swapped\n", 1),
        (&["45.4375", "-12.335"], "suspect\n", 1),
        (&["45,4", "12.335"], "refused 31\n", 1),
        (&["95.4375", "12.335"], "refused 32\n", 1),
    ];
    for (position, expected, status) in cases {
        let output = run(Command::new(&compiled).args(fields).args(position));
        let text = String::from_utf8(output.stdout).expect("text");
        assert_eq!((&*text, output.status.code()), (expected, Some(status)));
    }
}

#[test]
fn the_example_converts_records() {
    let compiled = temporary("example");
    let source = Path::new(HOST).join("example.c");
    compile(&["cc", "-std=c99"], &source, &compiled);
    let long = "x".repeat(limits::RECORD_CHARACTERS + 1);
    let cases: [(&[&str], &str, i32); 6] = [
        (&[], "<p lat='45' lon='12'/>\n", 0),
        (&["a: 'x'*.", "xx"], "<a>xx</a>\n", 0),
        (
            &["a: 'x'; 'x'.", "x"],
            "<a xmlns:ixml='http://invisiblexml.org/NS' ixml:state='ambiguous'>x</a>\n",
            0,
        ),
        (
            &["a: 'x'.", "y"],
            "the grammar does not derive the record\n",
            1,
        ),
        (&["a: b.", ""], "refused 5\n", 1),
        (&["a: 'x'.", &long], "refused 14\n", 1),
    ];
    for (arguments, expected, status) in cases {
        let output = run(Command::new(&compiled).args(arguments));
        let text = String::from_utf8(output.stdout).expect("text");
        assert_eq!((&*text, output.status.code()), (expected, Some(status)));
    }
}
