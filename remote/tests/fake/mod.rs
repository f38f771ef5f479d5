//! A server in the test's own process: contents, results, and execution that really runs a command in a
//! folder. It fails on request.
#![allow(clippy::wildcard_imports)]

use prost::Message;
use std::collections::{BTreeMap, BTreeSet};
use std::fs;
use std::net::SocketAddr;
use std::path::Path;
use std::pin::Pin;
use std::process::Command;
use std::sync::{Arc, Mutex, MutexGuard, mpsc};
use std::thread;
use tokio::net::TcpListener;
use tokio::sync::oneshot;
use tokio_stream::wrappers::TcpListenerStream;
use tokio_stream::{Stream, StreamExt};
use tonic::transport::{Server, ServerTlsConfig};
use tonic::{Request, Response, Status, Streaming};
use zigrunk_remote::api::bytestream::byte_stream_server::{ByteStream, ByteStreamServer};
use zigrunk_remote::api::bytestream::{ReadRequest, ReadResponse, WriteRequest, WriteResponse};
use zigrunk_remote::api::longrunning::{Operation, operation};
use zigrunk_remote::api::rpc;
use zigrunk_remote::api::v2::action_cache_server::{ActionCache, ActionCacheServer};
use zigrunk_remote::api::v2::capabilities_server::{Capabilities, CapabilitiesServer};
use zigrunk_remote::api::v2::content_addressable_storage_server::{
    ContentAddressableStorage, ContentAddressableStorageServer,
};
use zigrunk_remote::api::v2::execution_server::{Execution, ExecutionServer};
use zigrunk_remote::api::v2::{self, batch_read_blobs_response, batch_update_blobs_response, *};
use zigrunk_remote::compression::{Form, packed, unpacked};
use zigrunk_remote::digest::digest_of;

type Answers<T> = Pin<Box<dyn Stream<Item = Result<T, Status>> + Send>>;

/// Pseudorandom numbers (splitmix64).
#[derive(Clone, Copy, Debug, Default)]
pub struct Lot(pub u64);

impl Lot {
    pub fn below(&mut self, bound: u64) -> u64 {
        self.0 = self.0.wrapping_add(0x9e37_79b9_7f4a_7c15);
        let mixed = (self.0 ^ (self.0 >> 30)).wrapping_mul(0xbf58_476d_1ce4_e5b9);
        let mixed = (mixed ^ (mixed >> 27)).wrapping_mul(0x94d0_49bb_1331_11eb);
        (mixed ^ (mixed >> 31)) % bound
    }
}

/// What a server has, and how it behaves.
#[derive(Debug)]
pub struct State {
    pub contents: BTreeMap<String, Vec<u8>>,
    pub results: BTreeMap<String, ActionResult>,
    /// Executions by their names, each with its action.
    pub executions: BTreeMap<String, Digest>,
    pub executes: bool,
    pub takes_results: bool,
    pub is_full: bool,
    /// Whether contents may travel compressed, and how many did.
    pub has_zstd: bool,
    pub compressed: usize,
    /// Whether contents come with a changed byte.
    pub spoils: bool,
    /// Whether workers lack the tools.
    pub lacks_tools: bool,
    pub token: Option<String>,
    /// The calls that came, by their names, and the instances that they were for.
    pub calls: Vec<&'static str>,
    pub instances: BTreeSet<String>,
    /// One call of so many fails, by the numbers of a seed; 0 for none.
    pub fails_one_of: u64,
    pub lot: Lot,
}

impl Default for State {
    fn default() -> State {
        State {
            contents: BTreeMap::new(),
            results: BTreeMap::new(),
            executions: BTreeMap::new(),
            executes: true,
            takes_results: true,
            is_full: false,
            has_zstd: false,
            compressed: 0,
            spoils: false,
            lacks_tools: false,
            token: None,
            calls: Vec::new(),
            instances: BTreeSet::new(),
            fails_one_of: 0,
            lot: Lot(1),
        }
    }
}

impl State {
    /// Whether the next call, or the next part of an answer, fails.
    fn fails(&mut self) -> bool {
        self.fails_one_of > 0 && self.lot.below(self.fails_one_of) == 0
    }

    /// Takes part of what it has away, now and then.
    fn forget(&mut self) {
        if self.fails() {
            let lost = self
                .contents
                .keys()
                .nth(usize::try_from(self.lot.below(1 + self.contents.len() as u64)).unwrap())
                .cloned();
            lost.map(|hash| self.contents.remove(&hash));
        }
    }

    fn content(&mut self, digest: &Digest) -> Result<Vec<u8>, Status> {
        let spoils = self.spoils || self.fails();
        let found = self.contents.get(&digest.hash).cloned();
        let found = found.or_else(|| (digest.size_bytes == 0).then(Vec::new));
        let mut content = found.ok_or_else(|| Status::not_found(digest.hash.clone()))?;
        if let Some(byte) = content.first_mut().filter(|_| spoils) {
            *byte ^= 1;
        }
        Ok(content)
    }

    /// A content in the form in which it goes to whoever takes that.
    fn packed(&mut self, content: Vec<u8>, form: Form) -> (Vec<u8>, Form) {
        let (content, form) = packed(content, self.has_zstd && form == Form::Zstd);
        self.compressed += usize::from(form == Form::Zstd);
        (content, form)
    }

    fn keep(&mut self, digest: &Digest, content: Vec<u8>, form: Form) -> Result<(), Status> {
        if self.is_full {
            return Err(Status::resource_exhausted("no room"));
        }
        if form == Form::Zstd && !self.has_zstd {
            return Err(Status::invalid_argument("a compressor that isn't offered"));
        }
        self.compressed += usize::from(form == Form::Zstd);
        let size = usize::try_from(digest.size_bytes).unwrap();
        let content = unpacked(content, form, size).ok_or_else(|| Status::invalid_argument("no zstd"))?;
        if digest_of(&content) != *digest {
            return Err(Status::invalid_argument("another content"));
        }
        self.contents.insert(digest.hash.clone(), content);
        Ok(())
    }

    fn message<T: Message + Default>(&mut self, digest: Option<&Digest>) -> Result<T, Status> {
        let digest = digest.ok_or_else(|| Status::invalid_argument("no digest"))?;
        let content =
            self.contents.get(&digest.hash).ok_or_else(|| Status::failed_precondition("missing content"))?;
        T::decode(content.as_slice()).map_err(|_| Status::invalid_argument("no message"))
    }

    fn stage(&mut self, digest: Option<&Digest>, folder: &Path) -> Result<(), Status> {
        let directory: Directory = self.message(digest)?;
        for file in directory.files {
            let hash = file.digest.unwrap_or_default().hash;
            let content =
                self.contents.get(&hash).cloned().or_else(|| (hash == digest_of(b"").hash).then(Vec::new));
            fs::write(
                folder.join(file.name),
                content.ok_or_else(|| Status::failed_precondition("missing content"))?,
            )?;
        }
        for inner in directory.directories {
            fs::create_dir(folder.join(&inner.name))?;
            self.stage(inner.digest.as_ref(), &folder.join(&inner.name))?;
        }
        Ok(())
    }

    /// Runs an action in a folder of its own.
    fn run(&mut self, digest: &Digest) -> Result<ActionResult, Status> {
        let action: Action = self.message(Some(digest))?;
        let command: v2::Command = self.message(action.command_digest.as_ref())?;
        let folder = tempfile::tempdir()?;
        self.stage(action.input_root_digest.as_ref(), folder.path())?;
        let program = if self.lacks_tools { "/no/such/tool" } else { &command.arguments[0] };
        let variables =
            command.environment_variables.into_iter().map(|variable| (variable.name, variable.value));
        let ran = Command::new(program)
            .args(&command.arguments[1..])
            .current_dir(folder.path())
            .env_clear()
            .envs(variables)
            .output();
        let Ok(ran) = ran else { return Ok(ActionResult { exit_code: 127, ..ActionResult::default() }) };
        let mut result = ActionResult {
            exit_code: ran.status.code().unwrap_or(255),
            stdout_raw: ran.stdout,
            execution_metadata: Some(ExecutedActionMetadata { worker: "the worker".into() }),
            ..ActionResult::default()
        };
        let errors = digest_of(&ran.stderr);
        self.contents.insert(errors.hash.clone(), ran.stderr);
        result.stderr_digest = Some(errors);
        for path in command.output_paths {
            let Ok(content) = fs::read(folder.path().join(&path)) else { continue };
            let output = digest_of(&content);
            self.contents.insert(output.hash.clone(), content);
            result.output_files.push(OutputFile { path, digest: Some(output), ..OutputFile::default() });
        }
        if result.exit_code == 0 {
            self.results.insert(digest.hash.clone(), result.clone());
        }
        Ok(result)
    }
}

/// A server, which ends with its value.
pub struct Fake {
    pub address: SocketAddr,
    state: Arc<Mutex<State>>,
    end: Option<oneshot::Sender<()>>,
    thread: Option<thread::JoinHandle<()>>,
}

impl Fake {
    pub fn new(state: State) -> Fake {
        Fake::with_tls(state, None)
    }

    pub fn with_tls(state: State, tls: Option<ServerTlsConfig>) -> Fake {
        let state = Arc::new(Mutex::new(state));
        let ((end, ended), (told, hears)) = (oneshot::channel(), mpsc::channel());
        let service = Service(state.clone());
        let thread = thread::spawn(move || {
            let runtime = tokio::runtime::Builder::new_current_thread().enable_all().build().unwrap();
            runtime.block_on(async {
                let listener = TcpListener::bind("127.0.0.1:0").await.unwrap();
                told.send(listener.local_addr().unwrap()).unwrap();
                let server =
                    tls.map_or_else(Server::builder, |tls| Server::builder().tls_config(tls).unwrap());
                serve(server, service, listener, ended).await;
            });
        });
        Fake { address: hears.recv().unwrap(), state, end: Some(end), thread: Some(thread) }
    }

    pub fn state(&self) -> MutexGuard<'_, State> {
        self.state.lock().unwrap()
    }
}

async fn serve(server: Server, service: Service, listener: TcpListener, ended: oneshot::Receiver<()>) {
    let server = server
        .initial_stream_window_size(4 << 20)
        .add_service(CapabilitiesServer::new(service.clone()))
        .add_service(ContentAddressableStorageServer::new(service.clone()))
        .add_service(ActionCacheServer::new(service.clone()))
        .add_service(ExecutionServer::new(service.clone()))
        .add_service(ByteStreamServer::new(service));
    tokio::select! {
        result = server.serve_with_incoming(TcpListenerStream::new(listener)) => result.unwrap(),
        _ = ended => {}
    }
}

impl Drop for Fake {
    fn drop(&mut self) {
        let _ = self.end.take().map(|end| end.send(()));
        let _ = self.thread.take().map(thread::JoinHandle::join);
    }
}

#[derive(Clone)]
struct Service(Arc<Mutex<State>>);

impl Service {
    /// What a call begins with.
    fn called<T>(&self, name: &'static str, request: &Request<T>) -> Result<MutexGuard<'_, State>, Status> {
        let mut state = self.0.lock().unwrap();
        state.calls.push(name);
        let bearer = request
            .metadata()
            .get("authorization")
            .map(|value| value.to_str().unwrap_or_default().to_owned());
        if state
            .token
            .as_ref()
            .is_some_and(|token| bearer.as_deref() != Some(format!("Bearer {token}").as_str()))
        {
            return Err(Status::unauthenticated("the token has expired"));
        }
        if state.fails() {
            let kinds = [
                Status::unavailable("busy"),
                Status::internal("broken"),
                Status::aborted("again"),
                Status::resource_exhausted("too many"),
            ];
            let kind = usize::try_from(state.lot.below(kinds.len() as u64)).unwrap();
            return Err(kinds[kind].clone());
        }
        state.forget();
        Ok(state)
    }
}

#[tonic::async_trait]
impl Capabilities for Service {
    async fn get_capabilities(
        &self,
        request: Request<GetCapabilitiesRequest>,
    ) -> Result<Response<ServerCapabilities>, Status> {
        let mut state = self.called("capabilities", &request)?;
        state.instances.insert(request.get_ref().instance_name.clone());
        let sha256 = digest_function::Value::Sha256 as i32;
        let update = ActionCacheUpdateCapabilities { update_enabled: state.takes_results };
        let compressors = if state.has_zstd { vec![Form::Zstd.number()] } else { Vec::new() };
        let cache = CacheCapabilities {
            digest_functions: vec![sha256],
            action_cache_update_capabilities: Some(update),
            supported_compressors: compressors.clone(),
            supported_batch_update_compressors: compressors,
            ..CacheCapabilities::default()
        };
        let execution = ExecutionCapabilities { digest_function: sha256, exec_enabled: state.executes };
        Ok(Response::new(ServerCapabilities {
            cache_capabilities: Some(cache),
            execution_capabilities: Some(execution),
        }))
    }
}

#[tonic::async_trait]
impl ContentAddressableStorage for Service {
    async fn find_missing_blobs(
        &self,
        request: Request<FindMissingBlobsRequest>,
    ) -> Result<Response<FindMissingBlobsResponse>, Status> {
        let mut state = self.called("missing", &request)?;
        state.instances.insert(request.get_ref().instance_name.clone());
        let asked: BTreeSet<String> =
            request.get_ref().blob_digests.iter().map(|digest| digest.hash.clone()).collect();
        assert_eq!(asked.len(), request.get_ref().blob_digests.len(), "each content is asked for once");
        let is_missing = |digest: &Digest| !state.contents.contains_key(&digest.hash);
        Ok(Response::new(FindMissingBlobsResponse {
            missing_blob_digests: request.into_inner().blob_digests.into_iter().filter(is_missing).collect(),
        }))
    }

    async fn batch_update_blobs(
        &self,
        request: Request<BatchUpdateBlobsRequest>,
    ) -> Result<Response<BatchUpdateBlobsResponse>, Status> {
        let mut state = self.called("update", &request)?;
        state.instances.insert(request.get_ref().instance_name.clone());
        let update = |one: batch_update_blobs_request::Request| {
            let digest = one.digest.unwrap_or_default();
            let form = Form::of(one.compressor).unwrap();
            let status = state
                .keep(&digest, one.data, form)
                .err()
                .map(|status| rpc::Status { code: status.code() as i32, message: status.message().into() });
            batch_update_blobs_response::Response { digest: Some(digest), status }
        };
        let responses = request.into_inner().requests.into_iter().map(update).collect();
        Ok(Response::new(BatchUpdateBlobsResponse { responses }))
    }

    async fn batch_read_blobs(
        &self,
        request: Request<BatchReadBlobsRequest>,
    ) -> Result<Response<BatchReadBlobsResponse>, Status> {
        let mut state = self.called("read", &request)?;
        state.instances.insert(request.get_ref().instance_name.clone());
        let request = request.into_inner();
        let takes_zstd = request.acceptable_compressors.contains(&Form::Zstd.number());
        let form = if takes_zstd { Form::Zstd } else { Form::Plain };
        let read = |digest: Digest| match state.content(&digest) {
            Ok(content) => {
                let (data, form) = state.packed(content, form);
                let (digest, compressor) = (Some(digest), form.number());
                batch_read_blobs_response::Response { digest, data, compressor, ..Default::default() }
            }
            Err(status) => {
                let status =
                    Some(rpc::Status { code: status.code() as i32, message: status.message().into() });
                batch_read_blobs_response::Response { digest: Some(digest), status, ..Default::default() }
            }
        };
        let responses = request.digests.into_iter().map(read).collect();
        Ok(Response::new(BatchReadBlobsResponse { responses }))
    }
}

#[tonic::async_trait]
impl ActionCache for Service {
    async fn get_action_result(
        &self,
        request: Request<GetActionResultRequest>,
    ) -> Result<Response<ActionResult>, Status> {
        let mut state = self.called("result", &request)?;
        state.instances.insert(request.get_ref().instance_name.clone());
        let hash = request.into_inner().action_digest.unwrap_or_default().hash;
        state.results.get(&hash).cloned().map(Response::new).ok_or_else(|| Status::not_found("no result"))
    }

    async fn update_action_result(
        &self,
        request: Request<UpdateActionResultRequest>,
    ) -> Result<Response<ActionResult>, Status> {
        let mut state = self.called("keep", &request)?;
        state.instances.insert(request.get_ref().instance_name.clone());
        let message = request.into_inner();
        let result = message.action_result.unwrap_or_default();
        let lacks =
            |file: &OutputFile| !state.contents.contains_key(&file.digest.clone().unwrap_or_default().hash);
        if state.fails_one_of == 0 {
            assert!(!result.output_files.iter().any(lacks), "contents come before the result");
        }
        state.results.insert(message.action_digest.unwrap_or_default().hash, result.clone());
        Ok(Response::new(result))
    }
}

impl Service {
    /// An execution as its stream has it: a first word, and its end unless the stream breaks.
    fn operations(state: &mut State, name: &str, digest: &Digest) -> Answers<Operation> {
        let begun = Operation { name: name.into(), done: false, result: None };
        if state.fails() {
            return Box::pin(tokio_stream::iter([Ok(begun), Err(Status::unavailable("the stream broke"))]));
        }
        let response = match state.run(digest) {
            Ok(result) => ExecuteResponse { result: Some(result), ..ExecuteResponse::default() },
            Err(status) => {
                let status =
                    Some(rpc::Status { code: status.code() as i32, message: status.message().into() });
                ExecuteResponse { status, ..ExecuteResponse::default() }
            }
        };
        let any = prost_types::Any { type_url: String::new(), value: response.encode_to_vec() };
        let ended =
            Operation { name: name.into(), done: true, result: Some(operation::Result::Response(any)) };
        Box::pin(tokio_stream::iter([Ok(begun), Ok(ended)]))
    }
}

#[tonic::async_trait]
impl Execution for Service {
    type ExecuteStream = Answers<Operation>;
    type WaitExecutionStream = Answers<Operation>;

    async fn execute(
        &self,
        request: Request<ExecuteRequest>,
    ) -> Result<Response<Answers<Operation>>, Status> {
        let mut state = self.called("execute", &request)?;
        state.instances.insert(request.get_ref().instance_name.clone());
        if !state.executes {
            return Err(Status::unimplemented("no execution"));
        }
        let digest = request.into_inner().action_digest.unwrap_or_default();
        let name = format!("execution-{}", state.executions.len());
        state.executions.insert(name.clone(), digest.clone());
        Ok(Response::new(Service::operations(&mut state, &name, &digest)))
    }

    async fn wait_execution(
        &self,
        request: Request<WaitExecutionRequest>,
    ) -> Result<Response<Answers<Operation>>, Status> {
        let mut state = self.called("wait", &request)?;
        if state.fails() {
            state.executions.clear();
        }
        let name = request.into_inner().name;
        let digest =
            state.executions.get(&name).cloned().ok_or_else(|| Status::not_found("no such execution"))?;
        Ok(Response::new(Service::operations(&mut state, &name, &digest)))
    }
}

#[tonic::async_trait]
impl ByteStream for Service {
    type ReadStream = Answers<ReadResponse>;

    async fn read(&self, request: Request<ReadRequest>) -> Result<Response<Answers<ReadResponse>>, Status> {
        let mut state = self.called("read stream", &request)?;
        state.instances.insert(instance_in(&request.get_ref().resource_name));
        let (digest, form) = digest_in(&request.get_ref().resource_name)?;
        let content = state.content(&digest)?;
        let (content, _) = state.packed(content, form);
        let mut parts: Vec<Result<ReadResponse, Status>> =
            content.chunks(1 << 20).map(|part| Ok(ReadResponse { data: part.to_vec() })).collect();
        if state.fails() {
            parts.pop();
            parts.push(Err(Status::unavailable("the stream broke")));
        }
        Ok(Response::new(Box::pin(tokio_stream::iter(parts))))
    }

    async fn write(
        &self,
        request: Request<Streaming<WriteRequest>>,
    ) -> Result<Response<WriteResponse>, Status> {
        drop(self.called("write stream", &request)?);
        let (mut stream, mut name, mut content, mut is_whole) =
            (request.into_inner(), String::new(), Vec::new(), false);
        while let Some(part) = stream.next().await {
            let part = part?;
            if name.is_empty() {
                name.clone_from(&part.resource_name);
            }
            assert_eq!(part.write_offset, i64::try_from(content.len()).unwrap());
            content.extend(part.data);
            is_whole = part.finish_write;
        }
        let committed_size = i64::try_from(content.len()).unwrap();
        if !is_whole || !name.contains("uploads/") {
            return Err(Status::invalid_argument("no whole upload"));
        }
        let (digest, form) = digest_in(&name)?;
        let mut state = self.0.lock().unwrap();
        state.instances.insert(instance_in(&name));
        state.keep(&digest, content, form)?;
        Ok(Response::new(WriteResponse { committed_size }))
    }
}

/// The digest in a content's name, and the form in which it travels.
fn digest_in(name: &str) -> Result<(Digest, Form), Status> {
    let parts: Vec<&str> = name.rsplit('/').collect();
    let (size, hash, form) = match parts.as_slice() {
        [size, hash, "blobs", ..] => (size, hash, Form::Plain),
        [size, hash, "zstd", "compressed-blobs", ..] => (size, hash, Form::Zstd),
        _ => return Err(Status::invalid_argument("no content's name")),
    };
    let size_bytes = size.parse().map_err(|_| Status::invalid_argument("no size"))?;
    Ok((Digest { hash: (*hash).to_owned(), size_bytes }, form))
}

/// The instance in a content's name.
fn instance_in(name: &str) -> String {
    let parts: Vec<&str> = name.split('/').collect();
    let end = parts.iter().position(|part| ["uploads", "blobs", "compressed-blobs"].contains(part));
    parts[..end.unwrap_or_default()].join("/")
}
