//! A connection to a server, and the calls that it takes.
use crate::api::bytestream::byte_stream_client::ByteStreamClient;
use crate::api::v2::action_cache_client::ActionCacheClient;
use crate::api::v2::capabilities_client::CapabilitiesClient;
use crate::api::v2::content_addressable_storage_client::ContentAddressableStorageClient;
use crate::api::v2::execution_client::ExecutionClient;
use crate::api::v2::{GetCapabilitiesRequest, ServerCapabilities, digest_function};
use crate::compression::{self, Form};
use crate::failure::{Failure, is_transient, with_causes};
use crate::settings::{Server, Settings};
use std::fs;
use std::future::Future;
use std::path::Path;
use std::time::Duration;
use tokio::time::{sleep, timeout};
use tonic::metadata::{Ascii, MetadataValue};
use tonic::transport::{Certificate, Channel, ClientTlsConfig, Endpoint, Identity};
use tonic::{Request, Response, Status};

/// How long a server may take to be reached, and to answer a call. One that is too slow isn't asked once
/// more: a build would crawl.
const REACHING: Duration = Duration::from_secs(5);
const ANSWERING: Duration = Duration::from_secs(30);
/// How often a call is made that a server doesn't answer for a passing reason, and the pause before the
/// second time, which doubles.
const TRIES: u32 = 3;
const PAUSE: Duration = Duration::from_millis(100);

/// How many bytes a server may send before it hears that some have come: with HTTP/2's own 64 KiB, a stream
/// has no more for each round trip.
const WINDOW: u32 = 4 << 20;

/// How many bytes of contents a message has at most: that of gRPC's own limit, 4 MiB, without room for the
/// rest.
const MOST_IN_MESSAGE: usize = (4 << 20) - (64 << 10);

/// What a server can do.
#[derive(Clone, Copy, PartialEq, Eq, Debug, Default)]
pub struct Abilities {
    /// Whether it runs actions, and takes results of others.
    pub executes: bool,
    pub takes_results: bool,
    /// How many bytes of contents a message may have.
    pub most_in_message: usize,
    /// Whether contents may travel compressed by zstd in streams and from there, and in messages to there.
    pub has_zstd: bool,
    pub takes_zstd: bool,
}

/// Whether zstd is among a server's compressors, and this build has it.
fn knows_zstd(compressors: &[i32]) -> bool {
    compression::IS_HERE && compressors.contains(&Form::Zstd.number())
}

impl Abilities {
    fn of(capabilities: &ServerCapabilities) -> Result<Abilities, Failure> {
        let cache = capabilities.cache_capabilities.clone().unwrap_or_default();
        if !cache.digest_functions.is_empty()
            && !cache.digest_functions.contains(&(digest_function::Value::Sha256 as i32))
        {
            return Err(Failure::NoDigests);
        }
        let most = usize::try_from(cache.max_batch_total_size_bytes).ok().filter(|&most| most > 0);
        Ok(Abilities {
            executes: capabilities
                .execution_capabilities
                .as_ref()
                .is_some_and(|execution| execution.exec_enabled),
            takes_results: cache.action_cache_update_capabilities.is_some_and(|update| update.update_enabled),
            most_in_message: most.unwrap_or(MOST_IN_MESSAGE).min(MOST_IN_MESSAGE),
            has_zstd: knows_zstd(&cache.supported_compressors),
            takes_zstd: knows_zstd(&cache.supported_batch_update_compressors),
        })
    }
}

/// A server that is reached.
pub struct Connection {
    pub name: String,
    pub instance: String,
    pub abilities: Abilities,
    channel: Channel,
    bearer: Option<MetadataValue<Ascii>>,
    /// How many bytes of contents went there and came from there.
    pub sent: u64,
    pub received: u64,
}

fn read(path: &Path) -> Result<Vec<u8>, Failure> {
    fs::read(path).map_err(|error| Failure::Disk(path.to_owned(), error))
}

/// How TLS goes with a server.
fn tls(settings: &Settings) -> Result<ClientTlsConfig, Failure> {
    let tls = match &settings.authority {
        Some(authority) => ClientTlsConfig::new().ca_certificate(Certificate::from_pem(read(authority)?)),
        None => ClientTlsConfig::new().with_native_roots(),
    };
    Ok(match &settings.identity {
        Some((certificate, key)) => tls.identity(Identity::from_pem(read(certificate)?, read(key)?)),
        None => tls,
    })
}

/// What a call says of this user.
fn bearer(settings: &Settings) -> Result<Option<MetadataValue<Ascii>>, Failure> {
    let Some(file) = &settings.token else { return Ok(None) };
    let token = String::from_utf8(read(file)?).ok();
    let value = token.and_then(|token| format!("Bearer {}", token.trim()).parse().ok());
    value.map(Some).ok_or_else(|| Failure::Denied(format!("{} has no token", file.display())))
}

fn endpoint(server: &Server, settings: &Settings) -> Result<Endpoint, Failure> {
    let scheme = if server.is_secure { "https" } else { "http" };
    let endpoint = Endpoint::from_shared(format!("{scheme}://{}", server.authority))
        .map_err(|error| Failure::Unreachable(with_causes(&error)))?;
    let endpoint = endpoint
        .connect_timeout(REACHING)
        .tcp_nodelay(true)
        .initial_stream_window_size(WINDOW)
        .initial_connection_window_size(2 * WINDOW);
    if !server.is_secure {
        return Ok(endpoint);
    }
    endpoint.tls_config(tls(settings)?).map_err(|error| Failure::Certificate(with_causes(&error)))
}

fn says_one_of(why: &str, words: &[&str]) -> bool {
    let why = why.to_ascii_lowercase();
    words.iter().any(|word| why.contains(word))
}

/// Why a server wasn't reached, by what the connection says.
fn unreached(why: String) -> Failure {
    let is_of_tls = says_one_of(&why, &["certificate", "tls", "handshake", "alert"]);
    if is_of_tls { Failure::Certificate(why) } else { Failure::Unreachable(why) }
}

/// Why the first call behind a handshake wasn't answered. A server that doesn't take this user's certificate
/// says so only then, and may close the connection before that is read, or while the call is written.
fn unanswered(why: String, is_secure: bool) -> Failure {
    let is_closed = says_one_of(&why, &["connection closed", "broken pipe", "connection reset"]);
    if is_secure && is_closed { Failure::Certificate(why) } else { unreached(why) }
}

impl Connection {
    /// Reaches a server, and asks what it can do, unless that is known.
    pub async fn open(
        server: &Server,
        settings: &Settings,
        known: Option<Abilities>,
    ) -> Result<Connection, Failure> {
        let (endpoint, bearer) = (endpoint(server, settings)?, bearer(settings)?);
        let reached = timeout(REACHING, endpoint.connect()).await;
        let channel = reached
            .map_err(|_| Failure::Unreachable("no answer in time".into()))?
            .map_err(|error| unreached(with_causes(&error)))?;
        let (name, instance) = (server.name.clone(), settings.instance.clone());
        let abilities = known.unwrap_or_default();
        let mut connection = Connection { name, instance, abilities, channel, bearer, sent: 0, received: 0 };
        if known.is_some() {
            return Ok(connection);
        }
        let capabilities = connection.capabilities().await.map_err(|failure| match failure {
            Failure::Unreachable(why) => unanswered(why, server.is_secure),
            other => other,
        })?;
        connection.abilities = Abilities::of(&capabilities)?;
        Ok(connection)
    }

    async fn capabilities(&self) -> Result<ServerCapabilities, Failure> {
        let ask = || async {
            CapabilitiesClient::new(self.channel.clone())
                .get_capabilities(
                    self.request(GetCapabilitiesRequest { instance_name: self.instance.clone() }),
                )
                .await
        };
        self.call(ask).await
    }

    /// Whether the server still answers.
    pub async fn is_alive(&self) -> bool {
        matches!(timeout(2 * REACHING, self.capabilities()).await, Ok(Ok(_)))
    }

    /// A message with what a server wants to know of this user.
    pub fn request<T>(&self, message: T) -> Request<T> {
        let mut request = Request::new(message);
        if let Some(bearer) = &self.bearer {
            request.metadata_mut().insert("authorization", bearer.clone());
        }
        request
    }

    /// Makes a call until it is answered, or not for a passing reason, or too often.
    pub async fn call<T, F: Future<Output = Result<Response<T>, Status>>>(
        &self,
        mut call: impl FnMut() -> F,
    ) -> Result<T, Failure> {
        let mut tried = 1;
        loop {
            let answer = timeout(ANSWERING, call()).await;
            match answer.map_err(|_| Failure::Unreachable("no answer in time".into()))? {
                Ok(answer) => return Ok(answer.into_inner()),
                Err(status) if tried < TRIES && is_transient(status.code()) => {
                    sleep(PAUSE * 2u32.pow(tried - 1)).await;
                }
                Err(status) => return Err(status.into()),
            }
            tried += 1;
        }
    }

    pub fn actions(&self) -> ActionCacheClient<Channel> {
        ActionCacheClient::new(self.channel.clone())
    }

    pub fn contents(&self) -> ContentAddressableStorageClient<Channel> {
        ContentAddressableStorageClient::new(self.channel.clone())
    }

    pub fn streams(&self) -> ByteStreamClient<Channel> {
        ByteStreamClient::new(self.channel.clone())
    }

    pub fn execution(&self) -> ExecutionClient<Channel> {
        ExecutionClient::new(self.channel.clone())
    }
}

#[cfg(test)]
mod tests {
    use super::*;

    #[test]
    fn a_connection_that_ends_behind_the_handshake_is_of_certificates() {
        let closed = "transport error: operation was canceled: connection closed";
        for (why, is_secure, is_of_certificates) in [
            (closed, true, true),
            (closed, false, false),
            ("connection error: stream closed because of a broken pipe", true, true),
            ("connection error: Connection reset by peer (os error 104)", true, true),
            ("no answer in time", true, false),
            ("received fatal alert: CertificateRequired", true, true),
            ("tcp connect error: Connection refused (os error 111)", true, false),
        ] {
            let failure = unanswered(why.into(), is_secure);
            assert_eq!(matches!(failure, Failure::Certificate(_)), is_of_certificates, "{why}");
        }
    }
}
