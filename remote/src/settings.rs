//! What the environment says of servers.
use std::ffi::OsString;
use std::path::PathBuf;

/// What a server is for.
#[derive(Clone, Copy, PartialEq, Eq, Debug, Default)]
pub enum Use {
    /// It has what commands have made; they run here.
    #[default]
    Cache,
    /// It runs them, too.
    Run,
}

/// A server's address.
#[derive(Clone, PartialEq, Eq, Debug)]
pub struct Server {
    /// As the user wrote it.
    pub name: String,
    /// Its host and port.
    pub authority: String,
    /// Whether it is reached by TLS.
    pub is_secure: bool,
}

/// The variables `ZIGRUNK_REMOTE..`.
#[derive(Clone, PartialEq, Eq, Debug, Default)]
pub struct Settings {
    pub servers: Vec<Server>,
    pub usage: Use,
    /// Whether a command runs here if no server is of help.
    pub falls_back: bool,
    /// The part of a server that is asked for; usually empty.
    pub instance: String,
    /// What workers have to be like, beside having the tool: names and values, in order.
    pub platform: Vec<(String, String)>,
    /// The file of the authority of servers' certificates, if it isn't one that this machine knows.
    pub authority: Option<PathBuf>,
    /// The files of this user's certificate and its key.
    pub identity: Option<(PathBuf, PathBuf)>,
    /// The file of a token.
    pub token: Option<PathBuf>,
}

/// A server by its address: `grpc://HOST:PORT`, or `grpcs://HOST:PORT` with TLS.
/// Errors: what is wrong with it.
fn server(name: &str) -> Result<Server, String> {
    let (is_secure, authority) = match name.split_once("://") {
        Some(("grpc", authority)) => (false, authority),
        Some(("grpcs", authority)) => (true, authority),
        _ => return Err(format!("ZIGRUNK_REMOTE={name}: expected grpc://HOST:PORT or grpcs://HOST:PORT")),
    };
    let authority = authority.strip_suffix('/').unwrap_or(authority);
    let has_port = authority
        .rsplit_once(':')
        .is_some_and(|(host, port)| !host.is_empty() && port.parse::<u16>().is_ok());
    if !has_port || authority.contains(['/', '@']) {
        return Err(format!("ZIGRUNK_REMOTE={name}: expected a host and a port behind ://"));
    }
    Ok(Server { name: name.to_owned(), authority: authority.to_owned(), is_secure })
}

/// A property of workers: `NAME=VALUE`.
fn property(word: &str) -> Result<(String, String), String> {
    let parts = word.split_once('=').filter(|(name, _)| !name.is_empty());
    let (name, value) =
        parts.ok_or_else(|| format!("ZIGRUNK_REMOTE_PLATFORM: {word}: expected NAME=VALUE"))?;
    Ok((name.to_owned(), value.to_owned()))
}

impl Settings {
    /// Those that a look-up of variables gives.
    /// Errors: the first variable with a value that it can't have, and what is allowed.
    pub fn of(variable: &dyn Fn(&str) -> Option<OsString>) -> Result<Settings, String> {
        let text =
            |name: &str| match variable(name).filter(|value| !value.is_empty()).map(OsString::into_string) {
                None => Ok(None),
                Some(Ok(value)) => Ok(Some(value)),
                Some(Err(_)) => Err(format!("{name} isn't UTF-8")),
            };
        let path = |name: &str| variable(name).filter(|value| !value.is_empty()).map(PathBuf::from);
        let servers = text("ZIGRUNK_REMOTE")?
            .unwrap_or_default()
            .split_whitespace()
            .map(server)
            .collect::<Result<Vec<_>, _>>()?;
        if servers.is_empty() {
            return Err("ZIGRUNK_REMOTE is empty: expected grpc://HOST:PORT or grpcs://HOST:PORT".into());
        }
        let usage = match text("ZIGRUNK_REMOTE_USE")?.as_deref() {
            None | Some("cache") => Use::Cache,
            Some("run") => Use::Run,
            Some(other) => return Err(format!("ZIGRUNK_REMOTE_USE={other}: expected cache or run")),
        };
        let falls_back =
            match text("ZIGRUNK_REMOTE_FALLBACK")?.map(|text| text.to_ascii_lowercase()).as_deref() {
                None | Some("yes" | "on" | "true" | "1") => true,
                Some("no" | "off" | "false" | "0") => false,
                Some(other) => return Err(format!("ZIGRUNK_REMOTE_FALLBACK={other}: expected yes or no")),
            };
        let identity = match (path("ZIGRUNK_REMOTE_CERTIFICATE"), path("ZIGRUNK_REMOTE_KEY")) {
            (Some(certificate), Some(key)) => Some((certificate, key)),
            (None, None) => None,
            _ => {
                return Err("ZIGRUNK_REMOTE_CERTIFICATE and ZIGRUNK_REMOTE_KEY: expected both or none".into());
            }
        };
        let (authority, token) = (path("ZIGRUNK_REMOTE_CA"), path("ZIGRUNK_REMOTE_TOKEN"));
        let open = servers.iter().find(|server| !server.is_secure);
        if let (Some(open), true) = (open, token.is_some() || identity.is_some() || authority.is_some()) {
            return Err(format!(
                "ZIGRUNK_REMOTE={}: a token or certificate goes to grpcs:// alone",
                open.name
            ));
        }
        let instance = text("ZIGRUNK_REMOTE_INSTANCE")?.unwrap_or_default();
        let platform = text("ZIGRUNK_REMOTE_PLATFORM")?.unwrap_or_default();
        let mut platform = platform.split_whitespace().map(property).collect::<Result<Vec<_>, _>>()?;
        platform.sort();
        Ok(Settings { servers, usage, falls_back, instance, platform, authority, identity, token })
    }
}

#[cfg(test)]
mod tests {
    use super::*;

    fn of(variables: &[(&str, &str)]) -> Result<Settings, String> {
        Settings::of(&|name| {
            variables.iter().find(|(other, _)| *other == name).map(|(_, value)| value.into())
        })
    }

    #[test]
    fn a_server_has_a_scheme_a_host_and_a_port() {
        let settings = of(&[("ZIGRUNK_REMOTE", "grpc://a:1 grpcs://[::1]:8980/")]).unwrap();
        let wanted = [("a:1", false), ("[::1]:8980", true)];
        let servers: Vec<_> =
            settings.servers.iter().map(|server| (server.authority.as_str(), server.is_secure)).collect();
        assert_eq!((servers, settings.usage, settings.falls_back), (wanted.to_vec(), Use::Cache, true));
        for bad in [
            "",
            " ",
            "a:1",
            "http://a:1",
            "grpc://a",
            "grpc://:1",
            "grpc://a:x",
            "grpc://a:1/b",
            "grpc://u@a:1",
            "grpc://a:70000",
        ] {
            assert!(of(&[("ZIGRUNK_REMOTE", bad)]).is_err_and(|error| error.contains("expected")), "{bad}");
        }
    }

    #[test]
    fn variables_have_the_values_that_they_may() {
        let with = |name: &str, value: &str| of(&[("ZIGRUNK_REMOTE", "grpcs://a:1"), (name, value)]);
        assert_eq!(with("ZIGRUNK_REMOTE_USE", "run").unwrap().usage, Use::Run);
        assert!(
            !with("ZIGRUNK_REMOTE_FALLBACK", "no").unwrap().falls_back
                && !with("ZIGRUNK_REMOTE_FALLBACK", "OFF").unwrap().falls_back
        );
        let platform = with("ZIGRUNK_REMOTE_PLATFORM", "b=c=d  a=").unwrap().platform;
        assert_eq!(
            platform,
            [("a", ""), ("b", "c=d")].map(|(name, value)| (name.to_owned(), value.to_owned()))
        );
        assert_eq!(with("ZIGRUNK_REMOTE_TOKEN", "/t").unwrap().token, Some("/t".into()));
        for (name, value) in [
            ("USE", "all"),
            ("FALLBACK", "maybe"),
            ("PLATFORM", "a=b linux"),
            ("PLATFORM", "=b"),
            ("KEY", "/k"),
            ("CERTIFICATE", "/c"),
        ] {
            let name = format!("ZIGRUNK_REMOTE_{name}");
            assert!(with(&name, value).is_err_and(|error| error.contains(&name)), "{name}");
        }
    }

    #[test]
    fn no_secret_goes_to_a_server_without_tls() {
        for name in ["ZIGRUNK_REMOTE_TOKEN", "ZIGRUNK_REMOTE_CA"] {
            assert!(
                of(&[("ZIGRUNK_REMOTE", "grpcs://a:1 grpc://b:1"), (name, "/t")])
                    .is_err_and(|error| error.contains("grpc://b:1")),
                "{name}"
            );
        }
    }
}
