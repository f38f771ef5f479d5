//! Why the cache has nothing for a call.
use cache::miss::{Difference, Miss};
use cache::program::line_of;
use machine::settings::Settings;
use runner::served;
use serde::Serialize;

/// What comes of looking a call up.
#[derive(Clone, PartialEq, Eq, Debug, Serialize)]
pub struct Looked {
    /// Whether the cache has it.
    pub found: bool,
    /// A word for why it hasn't.
    #[serde(skip_serializing_if = "Option::is_none")]
    why: Option<&'static str>,
    /// What isn't as it was: its path or its name, and a word for how.
    #[serde(skip_serializing_if = "Option::is_none")]
    name: Option<String>,
    #[serde(skip_serializing_if = "Option::is_none")]
    change: Option<&'static str>,
    /// Why, in words.
    #[serde(skip_serializing_if = "Option::is_none")]
    message: Option<String>,
}

impl Looked {
    /// Looks up a call here and now, without making anything.
    /// Errors: what is wrong with a setting.
    pub fn up(nvcc: &str, words: &[String]) -> Result<Looked, String> {
        let settings = Settings::of_environment()?;
        let words: Vec<&str> = words.iter().map(String::as_str).collect();
        Ok(Looked::of(served::miss(&settings, &line_of(&settings, nvcc, &words)).as_ref()))
    }

    fn of(miss: Option<&Miss>) -> Looked {
        let difference = if let Some(Miss::Input(difference)) = miss { Some(difference) } else { None };
        Looked {
            found: miss.is_none(),
            why: miss.map(Miss::name),
            name: difference.map(|Difference { name, .. }| name.to_string_lossy().into_owned()),
            change: difference.map(|difference| difference.change.name()),
            message: miss.map(ToString::to_string),
        }
    }

    /// What a user reads of it.
    pub fn text(&self) -> String {
        let why = self.message.as_ref();
        why.map_or("the cache has this call\n".into(), |why| {
            format!("the cache has nothing for this call: {why}\n")
        })
    }
}

#[cfg(test)]
mod tests {
    use super::*;
    use cache::miss::Change;

    #[test]
    fn a_miss_is_said_in_a_line_and_in_json() {
        let json = |looked: &Looked| serde_json::to_string(looked).unwrap();
        let found = Looked::of(None);
        assert_eq!(
            (found.text().as_str(), json(&found).as_str()),
            ("the cache has this call\n", r#"{"found":true}"#)
        );
        let changed =
            Looked::of(Some(&Miss::Input(Difference { name: "a.h".into(), change: Change::Content })));
        assert_eq!(changed.text(), "the cache has nothing for this call: a.h has changed\n");
        assert_eq!(
            json(&changed),
            r#"{"found":false,"why":"input","name":"a.h","change":"changed","message":"a.h has changed"}"#
        );
        let refused = Looked::of(Some(&Miss::Refused("it links".into())));
        assert_eq!(
            json(&refused),
            r#"{"found":false,"why":"not kept","message":"it does not keep the call as a whole: it links"}"#
        );
    }
}
