//! Counts of what was met in a test, by its form.

use std::fmt;

/// A form, and how often it was met.
struct Form<T> {
    name: String,
    has: Box<dyn Fn(&T) -> bool>,
    count: u64,
}

/// Counts of several forms.
pub struct Forms<T> {
    all: u64,
    forms: Vec<Form<T>>,
}

impl<T> Forms<T> {
    pub(crate) fn new() -> Forms<T> {
        Forms {
            all: 0,
            forms: Vec::new(),
        }
    }

    /// Counts one form more.
    pub(crate) fn with(
        mut self,
        name: impl Into<String>,
        has: impl Fn(&T) -> bool + 'static,
    ) -> Forms<T> {
        self.forms.push(Form {
            name: name.into(),
            has: Box::new(has),
            count: 0,
        });
        self
    }

    /// Counts the forms that any of these has, each once.
    pub fn add(&mut self, items: impl Iterator<Item = T> + Clone) {
        self.all += 1;
        for form in &mut self.forms {
            form.count += u64::from(items.clone().any(|item| (form.has)(&item)));
        }
    }

    /// Fails unless each form was met more than once in so many times.
    pub fn expect(&self, times: u64) {
        for Form { name, count, .. } in &self.forms {
            assert!(times * count > self.all, "too few {name}\n{self}");
        }
    }
}

impl<T> fmt::Display for Forms<T> {
    fn fmt(&self, f: &mut fmt::Formatter<'_>) -> fmt::Result {
        for Form { name, count, .. } in &self.forms {
            writeln!(f, "{count:>10} of {} {name}", self.all)?;
        }
        Ok(())
    }
}

/// The pairs of these: each with those before it.
pub fn pairs<T: Copy>(items: &[T]) -> impl Iterator<Item = [T; 2]> + Clone + '_ {
    let places = items.iter().enumerate();
    places.flat_map(|(at, &item)| items[..at].iter().map(move |&other| [item, other]))
}
