//! The JSON that the library writes: whole numbers without a sign, and texts without escapes, since the name is left empty.

pub(crate) enum Json<'a> {
    Null,
    Bool(bool),
    Number(u64),
    Text(&'a str),
    List(Vec<Json<'a>>),
    Object(Vec<(&'a str, Json<'a>)>),
}

impl<'a> Json<'a> {
    /// The value that a text is, or none if the text is something else.
    pub(crate) fn read(text: &'a str) -> Option<Self> {
        let mut reader = Reader { rest: text.trim_end() };
        let value = reader.value()?;
        reader.rest.is_empty().then_some(value)
    }

    pub(crate) fn at(&self, name: &str) -> Option<&Self> {
        match self {
            Json::Object(members) => members.iter().find(|member| member.0 == name).map(|member| &member.1),
            _ => None,
        }
    }

    pub(crate) fn is_true(&self) -> Option<bool> {
        match self {
            Json::Bool(is_true) => Some(*is_true),
            _ => None,
        }
    }

    pub(crate) fn number<T: TryFrom<u64>>(&self) -> Option<T> {
        match self {
            Json::Number(number) => T::try_from(*number).ok(),
            _ => None,
        }
    }

    pub(crate) fn text(&self) -> Option<&'a str> {
        match self {
            Json::Text(text) => Some(text),
            _ => None,
        }
    }

    /// What each item of a list is.
    pub(crate) fn items<T>(&self, item: fn(&Self) -> Option<T>) -> Option<Vec<T>> {
        match self {
            Json::List(items) => items.iter().map(item).collect(),
            _ => None,
        }
    }

    /// What a value is that may be null.
    pub(crate) fn unless_null<T>(&self, read: fn(&Self) -> Option<T>) -> Option<Option<T>> {
        match self {
            Json::Null => Some(None),
            other => read(other).map(Some),
        }
    }
}

struct Reader<'a> {
    rest: &'a str,
}

impl<'a> Reader<'a> {
    fn takes(&mut self, mark: &str) -> bool {
        let rest = self.rest.strip_prefix(mark);
        self.rest = rest.unwrap_or(self.rest);
        rest.is_some()
    }

    fn value(&mut self) -> Option<Json<'a>> {
        if self.takes("{") {
            return self.group("}", Self::member).map(Json::Object);
        }
        if self.takes("[") {
            return self.group("]", Self::value).map(Json::List);
        }
        for (word, value) in [("null", Json::Null), ("true", Json::Bool(true)), ("false", Json::Bool(false))] {
            if self.takes(word) {
                return Some(value);
            }
        }
        if self.rest.starts_with('"') {
            return self.text().map(Json::Text);
        }
        let end = self.rest.find(|c: char| !c.is_ascii_digit()).unwrap_or(self.rest.len());
        let (digits, rest) = self.rest.split_at(end);
        self.rest = rest;
        digits.parse().ok().map(Json::Number)
    }

    /// The parts of an object or of a list, up to its end.
    fn group<T>(&mut self, end: &str, part: fn(&mut Self) -> Option<T>) -> Option<Vec<T>> {
        let mut parts = Vec::new();
        if self.takes(end) {
            return Some(parts);
        }
        loop {
            parts.push(part(self)?);
            if !self.takes(",") {
                return self.takes(end).then_some(parts);
            }
        }
    }

    fn member(&mut self) -> Option<(&'a str, Json<'a>)> {
        let name = self.text()?;
        if self.takes(":") {
            Some((name, self.value()?))
        } else {
            None
        }
    }

    fn text(&mut self) -> Option<&'a str> {
        let (text, rest) = self.rest.strip_prefix('"')?.split_once('"')?;
        self.rest = rest;
        Some(text)
    }
}
