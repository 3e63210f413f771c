//! A day as XML.

use days::{Day, Label};

/// The day's records as elements inside one outermost element `day`, since a day has several outermost records.
pub fn to_xml(day: &Day) -> String {
    let mut records: Vec<(Label, &str)> = Vec::with_capacity(day.records());
    for (tag, list) in &day.lists {
        let tag = std::str::from_utf8(tag).expect("a tag's name is ASCII");
        records.extend(list.iter().map(|label| (*label, tag)));
    }
    records.sort_unstable();
    let mut xml = Xml { text: String::from("<day>"), open: Vec::new() };
    for (label, tag) in records {
        xml.close_before(label.0);
        xml.open(label, tag);
    }
    xml.finish()
}

struct Xml<'a> {
    text: String,
    /// The elements that are still open: their ends and tags.
    open: Vec<(u32, &'a str)>,
}

impl<'a> Xml<'a> {
    fn open(&mut self, label: Label, tag: &'a str) {
        self.text.extend(["<", tag, ">"]);
        self.open.push((label.1, tag));
    }

    /// Closes the elements whose records end before `start`.
    fn close_before(&mut self, start: u32) {
        while let Some((_, tag)) = self.open.pop_if(|(end, _)| *end < start) {
            self.text.extend(["</", tag, ">"]);
        }
    }

    fn finish(mut self) -> String {
        while let Some((_, tag)) = self.open.pop() {
            self.text.extend(["</", tag, ">"]);
        }
        self.text.push_str("</day>");
        self.text
    }
}

#[cfg(test)]
mod tests {
    use super::to_xml;

    #[test]
    fn the_small_day() {
        let first = "<call><cancel></cancel><call><cancel></cancel><call><board></board></call></call></call>";
        let others = "<call><board></board></call><call></call>";
        assert_eq!(to_xml(&days::small_day()), format!("<day>{first}{others}</day>"));
    }
}
