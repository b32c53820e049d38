//! A strict reader of JSON, so that what the program prints is held to the grammar.

/// A value.
#[derive(Clone, Debug, PartialEq)]
pub enum Json {
    Truth(bool),
    Number(u64),
    Text(String),
    List(Vec<Json>),
    Object(Vec<(String, Json)>),
}

impl Json {
    /// The value that a text is.
    ///
    /// # Panics
    ///
    /// Where the text is no JSON, or has a null or a number that is not whole, of which the
    /// program writes none.
    pub fn read(text: &str) -> Json {
        let mut reader = Reader { text, rest: text };
        let value = reader.value();
        assert_eq!(reader.rest, "", "something stands behind the value: {text}");
        value
    }

    /// The member of an object.
    #[track_caller]
    pub fn at(&self, name: &str) -> &Json {
        let Json::Object(members) = self else { panic!("{self:?} is no object") };
        let found = members.iter().find(|(member, _)| member == name);
        &found.unwrap_or_else(|| panic!("{self:?} has no {name}")).1
    }

    #[track_caller]
    pub fn number(&self) -> u64 {
        let Json::Number(number) = self else { panic!("{self:?} is no number") };
        *number
    }

    #[track_caller]
    pub fn text(&self) -> &str {
        let Json::Text(text) = self else { panic!("{self:?} is no string") };
        text
    }

    #[track_caller]
    pub fn list(&self) -> &[Json] {
        let Json::List(items) = self else { panic!("{self:?} is no array") };
        items
    }
}

struct Reader<'t> {
    text: &'t str,
    rest: &'t str,
}

impl Reader<'_> {
    fn value(&mut self) -> Json {
        self.blanks();
        let value = match self.rest.chars().next() {
            Some('{') => Json::Object(self.items('{', '}', Reader::member)),
            Some('[') => Json::List(self.items('[', ']', Reader::value)),
            Some('"') => Json::Text(self.string()),
            Some('0'..='9') => Json::Number(self.number()),
            _ if self.takes("true") => Json::Truth(true),
            _ if self.takes("false") => Json::Truth(false),
            _ => self.fail("no value"),
        };
        self.blanks();
        value
    }

    fn member(&mut self) -> (String, Json) {
        self.blanks();
        let name = self.string();
        self.blanks();
        self.expect(':');
        (name, self.value())
    }

    fn items<T>(&mut self, open: char, close: char, item: fn(&mut Self) -> T) -> Vec<T> {
        self.expect(open);
        self.blanks();
        let mut items = vec![];
        if self.takes(&close.to_string()) {
            return items;
        }
        loop {
            items.push(item(self));
            if self.takes(&close.to_string()) {
                return items;
            }
            self.expect(',');
        }
    }

    fn string(&mut self) -> String {
        self.expect('"');
        let mut string = String::new();
        loop {
            match self.next() {
                '"' => return string,
                '\\' => string.push(self.escape()),
                control if control < ' ' => self.fail("a control character in a string"),
                plain => string.push(plain),
            }
        }
    }

    fn escape(&mut self) -> char {
        match self.next() {
            same @ ('"' | '\\' | '/') => same,
            'n' => '\n',
            't' => '\t',
            'u' => {
                let digits: String = (0..4).map(|_| self.next()).collect();
                let code = u32::from_str_radix(&digits, 16).ok().and_then(char::from_u32);
                code.unwrap_or_else(|| self.fail("no such character"))
            }
            _ => self.fail("no such escape"),
        }
    }

    fn number(&mut self) -> u64 {
        let end = self.rest.find(|c: char| !c.is_ascii_digit()).unwrap_or(self.rest.len());
        let (digits, rest) = self.rest.split_at(end);
        assert!(digits == "0" || !digits.starts_with('0'), "a number begins with 0: {}", self.text);
        self.rest = rest;
        digits.parse().unwrap_or_else(|_| self.fail("no whole number"))
    }

    fn next(&mut self) -> char {
        let next = self.rest.chars().next().unwrap_or_else(|| self.fail("the end"));
        self.rest = &self.rest[next.len_utf8()..];
        next
    }

    fn takes(&mut self, word: &str) -> bool {
        let rest = self.rest.strip_prefix(word);
        self.rest = rest.unwrap_or(self.rest);
        rest.is_some()
    }

    fn expect(&mut self, character: char) {
        if !self.takes(&character.to_string()) {
            self.fail(&format!("no {character}"))
        }
    }

    fn blanks(&mut self) {
        self.rest = self.rest.trim_start_matches([' ', '\t', '\r', '\n']);
    }

    fn fail(&self, what: &str) -> ! {
        panic!("{what} at {:?} of {}", self.rest, self.text)
    }
}
