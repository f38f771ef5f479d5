//! Why a server is of no help, and what a user can do about it.
use crate::api::v2::Digest;
use std::error::Error;
use std::fmt::{self, Display, Formatter};
use std::io;
use std::path::PathBuf;
use tonic::{Code, Status};

/// Why a server is of no help.
#[derive(Debug)]
pub enum Failure {
    /// It can't be reached, or not in time.
    Unreachable(String),
    /// It, or this user, has no certificate that the other takes.
    Certificate(String),
    /// It doesn't take this user, or this instance.
    Denied(String),
    /// It doesn't run actions.
    NoExecution,
    /// It doesn't know SHA-256.
    NoDigests,
    /// It has no room.
    Full(String),
    /// It lacks a content that it had.
    Evicted(Digest),
    /// A content that came isn't the one of its digest.
    Mismatch(Digest),
    /// It says something else than the API has it say.
    Odd(String),
    /// Any other answer.
    Refused(Status),
    /// A file of the command can't be read or written.
    Disk(PathBuf, io::Error),
}

/// Whether a server that answers so may answer otherwise a moment later.
#[must_use]
pub fn is_transient(code: Code) -> bool {
    matches!(
        code,
        Code::Unavailable
            | Code::Aborted
            | Code::Internal
            | Code::Unknown
            | Code::Cancelled
            | Code::DeadlineExceeded
    )
}

/// All that an error says, with its causes.
pub fn with_causes(error: &(dyn Error + 'static)) -> String {
    let causes = std::iter::successors(error.source(), |&error| error.source());
    causes.fold(error.to_string(), |text, cause| format!("{text}: {cause}"))
}

impl From<Status> for Failure {
    fn from(status: Status) -> Failure {
        // (a status that a server sent has no cause here: this one is of the connection)
        if let Some(cause) = status.source() {
            return Failure::Unreachable(with_causes(cause));
        }
        match status.code() {
            Code::Unauthenticated | Code::PermissionDenied => Failure::Denied(status.message().to_owned()),
            Code::ResourceExhausted => Failure::Full(status.message().to_owned()),
            _ => Failure::Refused(status),
        }
    }
}

impl Display for Failure {
    fn fmt(&self, to: &mut Formatter<'_>) -> fmt::Result {
        match self {
            Failure::Unreachable(why) => write!(
                to,
                "cannot be reached ({why}); is it running, and is its address in ZIGRUNK_REMOTE right?"
            ),
            Failure::Certificate(why) => write!(
                to,
                "no certificate that both take ({why}); ZIGRUNK_REMOTE_CA names the authority of the server's, ZIGRUNK_REMOTE_CERTIFICATE and \
                 ZIGRUNK_REMOTE_KEY your own"
            ),
            Failure::Denied(why) => {
                write!(
                    to,
                    "access denied ({why}); ask for a new token, and put it into the file that ZIGRUNK_REMOTE_TOKEN names"
                )
            }
            Failure::NoExecution => {
                write!(to, "it runs no actions; set ZIGRUNK_REMOTE_USE=cache, or name a server that does")
            }
            Failure::NoDigests => {
                write!(to, "it doesn't take SHA-256, by which contents are named here; name another server")
            }
            Failure::Full(why) => {
                write!(to, "its storage is full, or a limit is reached ({why}); ask for more room")
            }
            Failure::Evicted(digest) => {
                write!(to, "it no longer has the content {}; its storage may be too small", shown(digest))
            }
            Failure::Mismatch(digest) => {
                write!(to, "it sent another content than {}; tell whoever runs it", shown(digest))
            }
            Failure::Odd(what) => write!(to, "{what}; tell whoever runs it"),
            Failure::Refused(status) => write!(to, "it refuses: {} ({:?})", status.message(), status.code()),
            Failure::Disk(path, error) => write!(to, "{}: {error}", path.display()),
        }
    }
}

fn shown(digest: &Digest) -> String {
    format!("{}/{}", digest.hash, digest.size_bytes)
}

impl Error for Failure {}
