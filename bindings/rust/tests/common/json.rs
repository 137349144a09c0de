//! As much of JSON as the table of cases has: no fractions, no escapes but of quotes and backslashes.
use std::collections::BTreeMap;
use std::ops::Index;

#[derive(Clone, Debug, PartialEq)]
pub enum Json {
    Null,
    Bool(bool),
    Number(u64),
    Text(String),
    List(Vec<Json>),
    Map(BTreeMap<String, Json>),
}

impl Json {
    pub fn read(text: &str) -> Json {
        let mut reader = Reader { left: text.as_bytes() };
        let found = reader.value();
        assert!(reader.next().is_none(), "more behind the value");
        found
    }

    /// What stands under a name, if it stands there.
    pub fn get(&self, name: &str) -> Option<&Json> {
        let Json::Map(map) = self else { panic!("no map: {self:?}") };
        map.get(name)
    }

    pub fn text(&self) -> &str {
        let Json::Text(text) = self else { panic!("no text: {self:?}") };
        text
    }

    pub fn number(&self) -> u64 {
        let Json::Number(number) = self else { panic!("no number: {self:?}") };
        *number
    }

    pub fn list(&self) -> &[Json] {
        let Json::List(list) = self else { panic!("no list: {self:?}") };
        list
    }

    pub fn map(&self) -> &BTreeMap<String, Json> {
        let Json::Map(map) = self else { panic!("no map: {self:?}") };
        map
    }
}

impl Index<&str> for Json {
    type Output = Json;
    fn index(&self, name: &str) -> &Json {
        self.get(name).unwrap_or_else(|| panic!("no {name} in {self:?}"))
    }
}

impl Index<usize> for Json {
    type Output = Json;
    fn index(&self, place: usize) -> &Json {
        &self.list()[place]
    }
}

struct Reader<'a> {
    left: &'a [u8],
}

impl Reader<'_> {
    /// The next byte that is no space.
    fn next(&mut self) -> Option<u8> {
        self.left = self.left.trim_ascii_start();
        self.left.first().copied()
    }

    fn takes(&mut self, word: &str) -> bool {
        self.next();
        let rest = self.left.strip_prefix(word.as_bytes());
        self.left = rest.unwrap_or(self.left);
        rest.is_some()
    }

    fn value(&mut self) -> Json {
        match self.next() {
            Some(b'{') => Json::Map(self.all("{", "}", |it| {
                let name = it.string();
                assert!(it.takes(":"));
                (name, it.value())
            })),
            Some(b'[') => Json::List(self.all("[", "]", Reader::value)),
            Some(b'"') => Json::Text(self.string()),
            Some(b'0'..=b'9') => Json::Number(self.digits()),
            _ if self.takes("null") => Json::Null,
            _ if self.takes("true") => Json::Bool(true),
            _ => {
                assert!(self.takes("false"), "no value");
                Json::Bool(false)
            }
        }
    }

    /// What stands between two brackets, parted by commas.
    fn all<T, C: FromIterator<T>>(&mut self, begin: &str, end: &str, one: impl Fn(&mut Self) -> T) -> C {
        assert!(self.takes(begin));
        let mut found = Vec::new();
        while !self.takes(end) {
            assert!(found.is_empty() || self.takes(","));
            found.push(one(self));
        }
        found.into_iter().collect()
    }

    fn string(&mut self) -> String {
        assert!(self.takes("\""));
        let mut bytes = Vec::new();
        loop {
            let (&byte, rest) = self.left.split_first().expect("the text ends");
            self.left = rest;
            match byte {
                b'"' => return String::from_utf8(bytes).unwrap(),
                b'\\' => {
                    assert!(matches!(rest[0], b'"' | b'\\'), "another escape");
                    bytes.push(rest[0]);
                    self.left = &rest[1..];
                }
                byte => bytes.push(byte),
            }
        }
    }

    fn digits(&mut self) -> u64 {
        let count = self.left.iter().take_while(|byte| byte.is_ascii_digit()).count();
        let (digits, rest) = self.left.split_at(count);
        self.left = rest;
        std::str::from_utf8(digits).unwrap().parse().unwrap()
    }
}
