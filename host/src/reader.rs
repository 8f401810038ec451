use crate::limits::{main_table_for, GRAMMAR_TABLE, READING_NUMBERS};
use crate::{convert, judge, read, read_plain, Answer, Error};

/// Reads and converts records in memory of its own, which it keeps from one
/// job to the next.
///
/// A job at the limits takes a main table of 15 MB, short ones far less.
#[derive(Clone, Debug, Default)]
pub struct Reader {
    engine: Engine,
    main_table: Vec<u32>,
    grammar_table: Vec<u32>,
    numbers: Vec<u32>,
    scratch: Vec<u64>,
    xml: Vec<u8>,
}

/// What fills the main table where a record is read. The reading is the same.
#[derive(Clone, Copy, Debug, Default, PartialEq, Eq)]
pub enum Engine {
    /// Looks only where a derivation may go.
    #[default]
    Quick,
    /// Fills the whole table, one height after the other: far slower.
    Plain,
}

/// The chosen reading of a record.
#[derive(Clone, Debug, PartialEq, Eq)]
pub struct Reading {
    /// The left parse: the alternative of each node, top first.
    pub numbers: Vec<u32>,
    /// The record has more than one derivation.
    pub ambiguous: bool,
    /// The grammar's prolog names another version than 1.0.
    pub version_mismatch: bool,
}

/// A record as XML.
#[derive(Clone, Debug, PartialEq, Eq)]
pub struct Converted {
    /// The XML, without a declaration or a final line end.
    pub xml: String,
    /// The record has more than one derivation. The XML says so too.
    pub ambiguous: bool,
    /// The grammar's prolog names another version than 1.0. The XML says so
    /// too.
    pub version_mismatch: bool,
}

impl Reader {
    /// A reader with no memory yet.
    pub fn new() -> Reader {
        Reader::default()
    }

    /// A reader that reads by the engine. It converts by the quick one.
    ///
    /// ```
    /// use ixml::{Engine, Reader};
    ///
    /// let (grammar, record) = ("a: a, a; 'x'.", "xxx");
    /// let plain = Reader::with(Engine::Plain).read(grammar, record)?;
    /// assert_eq!(plain, Reader::new().read(grammar, record)?);
    /// # Ok::<(), ixml::Error>(())
    /// ```
    pub fn with(engine: Engine) -> Reader {
        Reader {
            engine,
            ..Reader::default()
        }
    }

    /// Reads a record. The error is none of 15 and 17 to 23.
    ///
    /// ```
    /// use ixml::{Error, Reader};
    ///
    /// let mut reader = Reader::new();
    /// let reading = reader.read("a: a; 'x'.", "x")?;
    /// assert_eq!(reading.numbers, [1]);
    /// assert!(reading.ambiguous);
    ///
    /// let refusal = reader.read("a: 'x'.", "y").unwrap_err();
    /// assert!(matches!(refusal, Error::NoReading { .. }));
    /// # Ok::<(), Error>(())
    /// ```
    pub fn read(
        &mut self,
        grammar: impl AsRef<[u8]>,
        record: impl AsRef<[u8]>,
    ) -> Result<Reading, Error> {
        let (grammar, record) = (grammar.as_ref(), record.as_ref());
        self.provide_tables(record);
        provide(&mut self.numbers, READING_NUMBERS);
        let call = match self.engine {
            Engine::Quick => read,
            Engine::Plain => read_plain,
        };
        let answer = call(
            grammar,
            record,
            &mut self.main_table,
            &mut self.grammar_table,
            &mut self.numbers,
        )
        .ok()
        .map_err(|error| error.quoting(grammar, record))?;
        Ok(Reading {
            numbers: self.numbers[..answer.length].to_vec(),
            ambiguous: answer.ambiguous,
            version_mismatch: answer.version,
        })
    }

    /// Converts a record to XML. The error is neither 15 nor 23.
    ///
    /// ```
    /// use ixml::{Error, Reader};
    ///
    /// let mut reader = Reader::new();
    /// let grammar = "a: ~[]*.";
    /// assert_eq!(reader.convert(grammar, "<&>")?.xml, "<a>&lt;&amp;&gt;</a>");
    ///
    /// let refusal = reader.convert("@a: 'x'.", "x").unwrap_err();
    /// assert_eq!(refusal, Error::AttributeRoot);
    /// # Ok::<(), Error>(())
    /// ```
    pub fn convert(
        &mut self,
        grammar: impl AsRef<[u8]>,
        record: impl AsRef<[u8]>,
    ) -> Result<Converted, Error> {
        let (grammar, record) = (grammar.as_ref(), record.as_ref());
        self.provide_tables(record);
        let (main_table, grammar_table) = (&mut self.main_table, &mut self.grammar_table);
        let answer = with_room(&mut self.xml, |xml| {
            convert(grammar, record, main_table, grammar_table, xml)
        })
        .map_err(|error| error.quoting(grammar, record))?;
        Ok(converted(&self.xml, answer))
    }

    /// Judges a list of numbers, whoever made it: the XML of the derivation of
    /// the record that it names, with no word on ambiguity. The error is none of
    /// 15, 16, 23 and 29; 25 says that the list names no derivation.
    ///
    /// ```
    /// use ixml::{Error, Reader};
    ///
    /// let mut reader = Reader::new();
    /// let grammar = "a: 'x'; b. b: 'x'.";
    /// assert_eq!(reader.judge(grammar, "x", &[0])?.xml, "<a>x</a>");
    /// assert_eq!(reader.judge(grammar, "x", &[1, 0])?.xml, "<a><b>x</b></a>");
    /// assert_eq!(reader.judge(grammar, "x", &[2]), Err(Error::NoDerivation));
    /// # Ok::<(), Error>(())
    /// ```
    pub fn judge(
        &mut self,
        grammar: impl AsRef<[u8]>,
        record: impl AsRef<[u8]>,
        list: &[u32],
    ) -> Result<Converted, Error> {
        let (grammar, record) = (grammar.as_ref(), record.as_ref());
        provide(&mut self.grammar_table, GRAMMAR_TABLE);
        provide(&mut self.scratch, 2 * list.len());
        let (grammar_table, scratch) = (&self.grammar_table, &mut self.scratch);
        let answer = with_room(&mut self.xml, |xml| {
            judge(grammar, record, list, grammar_table, scratch, xml)
        })
        .map_err(|error| error.quoting(grammar, record))?;
        Ok(converted(&self.xml, answer))
    }

    fn provide_tables(&mut self, record: &[u8]) {
        provide(&mut self.main_table, main_table_for(record));
        provide(&mut self.grammar_table, GRAMMAR_TABLE);
    }
}

/// What an answer says of the XML that it counts.
pub(crate) fn converted(xml: &[u8], answer: Answer) -> Converted {
    let xml = xml[..answer.length].to_vec();
    Converted {
        xml: String::from_utf8(xml).expect("the library writes UTF-8"),
        ambiguous: answer.ambiguous,
        version_mismatch: answer.version,
    }
}

/// Makes a buffer at least so long. What it held is of no use.
fn provide<T: Clone + Default>(buffer: &mut Vec<T>, length: usize) {
    if buffer.len() < length {
        *buffer = vec![T::default(); length];
    }
}

/// Bytes that the first attempt provides for the XML. Where they are too few the
/// job is repeated with more.
const XML_BYTES: usize = 1 << 16;

/// Calls with a buffer, and again with a longer one while the result is too long.
pub(crate) fn with_room(
    xml: &mut Vec<u8>,
    mut call: impl FnMut(&mut [u8]) -> Answer,
) -> Result<Answer, Error> {
    provide(xml, XML_BYTES);
    loop {
        match call(xml).ok() {
            Err(Error::ResultTooLong) => {
                let more = 8 * xml.len();
                provide(xml, more);
            }
            settled => return settled,
        }
    }
}
