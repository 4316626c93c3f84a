//! Reads call lists: one statement to a line.

#[derive(Clone, Copy, Debug)]
pub struct Info {
    pub ts: u64,
    pub lsn: i64,
    pub offset: u64,
    pub blob: Option<i64>,
    pub size: u64,
}

#[derive(Clone, Copy, Debug)]
pub struct Row {
    pub kind: u8,
    pub lsn: i64,
    pub offset: u64,
    pub blob: Option<i64>,
    pub size: u64,
}

#[derive(Debug)]
pub enum Statement {
    Host { queued: bool, size: u64, length: u64, blobs: Vec<i64> },
    Fail { passes: u64 },
    Page { first: u64, count: u64 },
    Row(Row),
    Start { size: u64, header: u64, stable: Option<i64>, active: Option<u64> },
    Link { page: u64, info: Info },
    Old(Info),
    Replace { page: u64, lsn: i64, new: Info },
    Next { lsn: i64 },
    Stabilize { lsn: i64 },
    Pop,
    Take,
    Books,
}

/// The fields of one line, taken from the left.
struct Fields<'a> {
    words: std::vec::IntoIter<&'a str>,
}

impl<'a> Fields<'a> {
    fn word(&mut self) -> Result<&'a str, String> {
        self.words.next().ok_or_else(|| "a field is missing".to_string())
    }

    fn unsigned(&mut self) -> Result<u64, String> {
        read_unsigned(self.word()?)
    }

    fn signed(&mut self) -> Result<i64, String> {
        read_signed(self.word()?)
    }

    fn kind(&mut self) -> Result<u8, String> {
        let number = self.unsigned()?;
        if number > 255 {
            return Err(format!("{} is no kind", number));
        }
        Ok(number as u8)
    }

    fn signed_or_none(&mut self) -> Result<Option<i64>, String> {
        match self.word()? {
            "-" => Ok(None),
            word => read_signed(word).map(Some),
        }
    }

    fn unsigned_or_none(&mut self) -> Result<Option<u64>, String> {
        match self.word()? {
            "-" => Ok(None),
            word => read_unsigned(word).map(Some),
        }
    }

    fn info(&mut self) -> Result<Info, String> {
        Ok(Info {
            ts: self.unsigned()?,
            lsn: self.signed()?,
            offset: self.unsigned()?,
            blob: self.signed_or_none()?,
            size: self.unsigned()?,
        })
    }

    fn row(&mut self) -> Result<Row, String> {
        Ok(Row {
            kind: self.kind()?,
            lsn: self.signed()?,
            offset: self.unsigned()?,
            blob: self.signed_or_none()?,
            size: self.unsigned()?,
        })
    }

    fn rest(&mut self) -> Result<Vec<i64>, String> {
        let mut numbers = vec![];
        for word in &mut self.words {
            numbers.push(read_signed(word)?);
        }
        Ok(numbers)
    }
}

fn read_unsigned(word: &str) -> Result<u64, String> {
    let digits = !word.is_empty() && word.bytes().all(|b| b.is_ascii_digit());
    match word.parse() {
        Ok(number) if digits => Ok(number),
        _ => Err(format!("{} is no unsigned number", word)),
    }
}

fn read_signed(word: &str) -> Result<i64, String> {
    let body = word.strip_prefix('-').unwrap_or(word);
    let digits = !body.is_empty() && body.bytes().all(|b| b.is_ascii_digit());
    match word.parse() {
        Ok(number) if digits => Ok(number),
        _ => Err(format!("{} is no signed number", word)),
    }
}

/// The statement of one line, or none for an empty line or a remark.
pub fn read(line: &str) -> Result<Option<Statement>, String> {
    if line.starts_with('#') {
        return Ok(None);
    }
    let words: Vec<&str> = line.split(' ').filter(|word| !word.is_empty()).collect();
    if words.is_empty() {
        return Ok(None);
    }
    let mut fields = Fields { words: words.into_iter() };
    let statement = read_statement(&mut fields)?;
    if fields.words.next().is_some() {
        return Err("a field too many".to_string());
    }
    Ok(Some(statement))
}

fn read_statement(fields: &mut Fields<'_>) -> Result<Statement, String> {
    let word = fields.word()?;
    let statement = match word {
        "memory" | "queue" => Statement::Host {
            queued: word == "queue",
            size: fields.unsigned()?,
            length: fields.unsigned()?,
            blobs: fields.rest()?,
        },
        "fail" => Statement::Fail { passes: fields.unsigned()? },
        "page" => Statement::Page { first: fields.unsigned()?, count: fields.unsigned()? },
        "row" => Statement::Row(fields.row()?),
        "start" => Statement::Start {
            size: fields.unsigned()?,
            header: fields.unsigned()?,
            stable: fields.signed_or_none()?,
            active: fields.unsigned_or_none()?,
        },
        "link" => Statement::Link { page: fields.unsigned()?, info: fields.info()? },
        "old" => Statement::Old(fields.info()?),
        "replace" => {
            Statement::Replace { page: fields.unsigned()?, lsn: fields.signed()?, new: fields.info()? }
        }
        "next" => Statement::Next { lsn: fields.signed()? },
        "stabilize" => Statement::Stabilize { lsn: fields.signed()? },
        "pop" => Statement::Pop,
        "take" => Statement::Take,
        "books" => Statement::Books,
        other => return Err(format!("{} is no statement", other)),
    };
    Ok(statement)
}
