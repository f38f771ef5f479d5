//! Environments of programs.
use std::borrow::Cow;
use std::env;
use std::ffi::{CStr, CString, OsStr};
use std::io;
use std::os::unix::ffi::OsStrExt;

/// Variables, each as a program gets it: `NAME=VALUE`.
#[derive(Clone, Debug)]
pub struct Environment(Vec<CString>);

fn assigned(name: &OsStr, value: &OsStr) -> Option<CString> {
    CString::new([name.as_bytes(), b"=", value.as_bytes()].concat()).ok()
}

/// The value of a variable, if it has this name.
fn value_of<'a>(variable: &'a CStr, name: &str) -> Option<&'a OsStr> {
    variable.to_bytes().strip_prefix(name.as_bytes())?.strip_prefix(b"=").map(OsStr::from_bytes)
}

impl Environment {
    /// This process's.
    #[must_use]
    pub fn own() -> Environment {
        Environment(env::vars_os().filter_map(|(name, value)| assigned(&name, &value)).collect())
    }

    /// That of these variables, without those that have a NUL.
    pub fn of(variables: impl Iterator<Item = Vec<u8>>) -> Environment {
        Environment(variables.filter_map(|variable| CString::new(variable).ok()).collect())
    }

    /// The variables, each as `NAME=VALUE`.
    pub fn variables(&self) -> impl Iterator<Item = &[u8]> {
        self.0.iter().map(|variable| variable.to_bytes())
    }

    /// The same with a variable in place of what it had.
    #[must_use]
    pub fn with(mut self, name: &str, value: &OsStr) -> Environment {
        self.0.retain(|variable| value_of(variable, name).is_none());
        self.0.extend(assigned(name.as_ref(), value));
        self
    }

    /// The value of a variable.
    #[must_use]
    pub fn get(&self, name: &str) -> Option<&OsStr> {
        self.0.iter().find_map(|variable| value_of(variable, name))
    }

    /// The same with these variables in place of what it had: values, or nothing if it lacks a variable.
    ///
    /// # Errors
    ///
    /// If a value has a NUL.
    pub fn changed(&self, variables: &[(String, Option<String>)]) -> io::Result<Vec<Cow<'_, CStr>>> {
        let is_kept = |text: &&CString| !variables.iter().any(|(name, _)| value_of(text, name).is_some());
        let kept = self.0.iter().filter(is_kept).map(|text| Ok(Cow::Borrowed(text.as_c_str())));
        let given = variables.iter().filter_map(|(name, value)| Some((name, value.as_ref()?)));
        let given = given.map(|(name, value)| {
            assigned(name.as_ref(), value.as_ref())
                .map(Cow::Owned)
                .ok_or_else(|| io::ErrorKind::InvalidInput.into())
        });
        kept.chain(given).collect()
    }
}

#[cfg(test)]
mod tests {
    use super::*;

    #[test]
    fn variables_take_the_place_of_others() {
        let few = Environment(["A=1", "AB=x=y", "C="].map(|text| CString::new(text).unwrap()).into());
        assert_eq!(
            (few.get("AB"), few.get("C"), few.get("B")),
            (Some("x=y".as_ref()), Some("".as_ref()), None)
        );
        let changed = few
            .changed(&[("A".into(), None), ("C".into(), Some("2".into())), ("D".into(), Some("3".into()))])
            .unwrap();
        assert_eq!(changed, [c"AB=x=y", c"C=2", c"D=3"].map(Cow::Borrowed));
        assert!(few.changed(&[("A".into(), Some("\0".into()))]).is_err());
        assert_eq!(
            few.with("A", "2".as_ref()).changed(&[]).unwrap(),
            [c"AB=x=y", c"C=", c"A=2"].map(Cow::Borrowed)
        );
    }
}
