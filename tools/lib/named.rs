//! What a scenario declares by name, in its order; no name of a kind is given twice.

struct Declared<T> {
    name: String,
    line: usize,
    value: T,
}

pub struct Named<T> {
    /// The kind, in words.
    what: &'static str,
    declared: Vec<Declared<T>>,
}

impl<T> Named<T> {
    pub fn of(what: &'static str) -> Named<T> {
        Named { what, declared: Vec::new() }
    }

    pub fn add(&mut self, line: usize, name: &str, value: T) -> Result<(), String> {
        if let Some(other) = self.declared.iter().find(|other| other.name == name) {
            return Err(format!("a {} is named '{name}' already, in line {}", self.what, other.line));
        }
        self.declared.push(Declared { name: name.into(), line, value });
        Ok(())
    }

    pub fn get(&self, name: &str) -> Option<&T> {
        self.declared.iter().find(|declared| declared.name == name).map(|declared| &declared.value)
    }

    pub fn find(&self, name: &str) -> Result<&T, String> {
        self.get(name).ok_or_else(|| self.unknown(name))
    }

    pub fn find_mut(&mut self, name: &str) -> Result<&mut T, String> {
        let unknown = self.unknown(name);
        let found = self.declared.iter_mut().find(|declared| declared.name == name);
        found.map(|declared| &mut declared.value).ok_or(unknown)
    }

    /// The one declared last.
    pub fn last_mut(&mut self) -> Result<&mut T, String> {
        let none = format!("no {} stands above", self.what);
        self.declared.last_mut().map(|declared| &mut declared.value).ok_or(none)
    }

    pub fn iter(&self) -> impl Iterator<Item = (&str, &T)> {
        self.declared.iter().map(|declared| (declared.name.as_str(), &declared.value))
    }

    fn unknown(&self, name: &str) -> String {
        format!("no {} is named '{name}' above", self.what)
    }
}
