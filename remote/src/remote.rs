//! A command by a server: what its cache has, or what comes of running it there.
use crate::action::Action;
use crate::api::longrunning::{Operation, operation};
use crate::api::v2::{
    ActionResult, ExecuteRequest, ExecuteResponse, GetActionResultRequest, UpdateActionResultRequest,
    WaitExecutionRequest,
};
use crate::connection::{Abilities, Connection};
use crate::digest::{Blob, digest_of};
use crate::failure::{Failure, is_transient};
use crate::note::Way;
use crate::outputs::Made;
use crate::settings::{Server, Settings, Use};
use prost::Message;
use std::time::Duration;
use tokio::time::{sleep, timeout};
use tonic::{Code, Status, Streaming};

/// How long an execution may be silent until the server is asked whether it still answers.
const SILENCE: Duration = Duration::from_secs(30);
/// How often an execution is taken up again whose stream broke, and the pause before.
const TRIES: u32 = 6;
const PAUSE: Duration = Duration::from_millis(250);

/// What a server was for a command.
pub enum Answer {
    /// It had what the command makes, or made it.
    Made(Made, Way),
    /// It has nothing; it may get what the command makes here.
    Missed,
}

/// The servers in the order in which an action asks them. Each server has its share of actions, and the same
/// ones from all machines.
#[must_use]
pub fn in_order<'a>(servers: &'a [Server], action: &Action) -> Vec<&'a Server> {
    let mut servers: Vec<&Server> = servers.iter().collect();
    servers
        .sort_by_key(|server| digest_of(format!("{} {}", server.name, action.digest.hash).as_bytes()).hash);
    servers
}

/// Asks a server for what an action makes. With the connection, whose counts say how much went over it.
pub async fn ask(
    server: &Server,
    settings: &Settings,
    action: &Action,
    known: Option<Abilities>,
) -> Result<(Answer, Connection), Failure> {
    let mut connection = Connection::open(server, settings, known).await?;
    let found = found(&mut connection, action).await?;
    if let Some(made) = found {
        return Ok((Answer::Made(made, Way::Found), connection));
    }
    if settings.usage == Use::Cache {
        return Ok((Answer::Missed, connection));
    }
    if !connection.abilities.executes {
        return Err(Failure::NoExecution);
    }
    let made = connection.executed(action).await?;
    Ok((Answer::Made(made, Way::Ran), connection))
}

/// What the server's cache has for an action. What it says to have and hasn't counts as nothing.
async fn found(connection: &mut Connection, action: &Action) -> Result<Option<Made>, Failure> {
    let Some(result) = connection.result(action).await? else { return Ok(None) };
    if result.exit_code != 0 {
        return Ok(None);
    }
    match Made::fetch(connection, action, &result).await {
        Err(Failure::Evicted(_) | Failure::Mismatch(_)) => Ok(None),
        other => other,
    }
}

impl Connection {
    async fn result(&self, action: &Action) -> Result<Option<ActionResult>, Failure> {
        let message = GetActionResultRequest {
            instance_name: self.instance.clone(),
            action_digest: Some(action.digest.clone()),
            inline_stdout: true,
            inline_stderr: true,
        };
        let ask = || async { self.actions().get_action_result(self.request(message.clone())).await };
        match self.call(ask).await {
            Ok(result) => Ok(Some(result)),
            Err(Failure::Refused(status)) if status.code() == Code::NotFound => Ok(None),
            Err(failure) => Err(failure),
        }
    }

    /// Has the server keep what an action made here. Its contents go first: a result whose contents nobody
    /// has is worth nothing.
    pub async fn keep(
        &mut self,
        action: &Action,
        result: ActionResult,
        contents: &[Blob],
    ) -> Result<(), Failure> {
        // (the action's own messages are there for people who look a result up)
        let blobs: Vec<Blob> = contents
            .iter()
            .chain(action.blobs.iter().filter(|blob| blob.path().as_os_str().is_empty()))
            .cloned()
            .collect();
        self.send(&blobs).await?;
        let message = UpdateActionResultRequest {
            instance_name: self.instance.clone(),
            action_digest: Some(action.digest.clone()),
            action_result: Some(result),
        };
        let ask = || async { self.actions().update_action_result(self.request(message.clone())).await };
        self.call(ask).await.map(|_| ())
    }

    /// What comes of running an action at the server. If it lacks an input once more, or a part of what it
    /// has made, it gets all again, once.
    async fn executed(&mut self, action: &Action) -> Result<Made, Failure> {
        match self.try_executed(action).await {
            Err(Failure::Evicted(_)) => self.try_executed(action).await,
            other => other,
        }
    }

    async fn try_executed(&mut self, action: &Action) -> Result<Made, Failure> {
        self.send(&action.blobs).await?;
        let response = self.execution_of(action).await?;
        let status = response.status.unwrap_or_default();
        match Code::from(status.code) {
            Code::Ok => {}
            // (the API's answer to an action whose inputs aren't there)
            Code::FailedPrecondition | Code::NotFound => return Err(Failure::Evicted(action.digest.clone())),
            code => return Err(Status::new(code, status.message).into()),
        }
        let result =
            response.result.ok_or_else(|| Failure::Odd("it ran an action and has no result".into()))?;
        let made = Made::fetch(self, action, &result).await?;
        made.ok_or_else(|| Failure::Odd("it ran an action, and an output is missing".into()))
    }

    /// Runs an action. A stream that breaks is taken up again, by the name of its execution.
    async fn execution_of(&self, action: &Action) -> Result<ExecuteResponse, Failure> {
        let (mut name, mut tried) = (None, 1);
        loop {
            match self.followed(action, &mut name).await {
                Ok(response) => return Ok(response),
                Err(status) if status.code() == Code::Unimplemented => return Err(Failure::NoExecution),
                Err(status)
                    if tried < TRIES && (is_transient(status.code()) || status.code() == Code::NotFound) =>
                {
                    if status.code() == Code::NotFound {
                        // It has forgotten the execution, as one that was started anew has.
                        name = None;
                    }
                    sleep(PAUSE * 2u32.pow(tried - 1)).await;
                }
                Err(status) => return Err(status.into()),
            }
            tried += 1;
        }
    }

    async fn stream(&self, action: &Action, name: Option<&String>) -> Result<Streaming<Operation>, Status> {
        let mut execution = self.execution();
        let answer = if let Some(name) = name {
            execution.wait_execution(self.request(WaitExecutionRequest { name: name.clone() })).await
        } else {
            let action_digest = Some(action.digest.clone());
            // (the cache was asked before, and may have what it can't give)
            let message = ExecuteRequest {
                instance_name: self.instance.clone(),
                skip_cache_lookup: true,
                action_digest,
            };
            execution.execute(self.request(message)).await
        };
        answer.map(tonic::Response::into_inner)
    }

    /// Follows an execution to its end; `name` gets its name.
    async fn followed(&self, action: &Action, name: &mut Option<String>) -> Result<ExecuteResponse, Status> {
        let begun = timeout(SILENCE, self.stream(action, name.as_ref())).await;
        let mut operations = begun.map_err(|_| Status::unavailable("no answer in time"))??;
        loop {
            let next = match timeout(SILENCE, operations.message()).await {
                Ok(next) => next?,
                Err(_) if self.is_alive().await => continue,
                Err(_) => return Err(Status::unavailable("the server no longer answers")),
            };
            let Some(operation) = next else {
                return Err(Status::unavailable("the execution's stream has no end"));
            };
            if !operation.name.is_empty() {
                *name = Some(operation.name.clone());
            }
            if operation.done {
                return response_of(operation);
            }
        }
    }
}

/// What an execution that has ended came to.
fn response_of(operation: Operation) -> Result<ExecuteResponse, Status> {
    match operation.result {
        Some(operation::Result::Error(error)) => Err(Status::new(Code::from(error.code), error.message)),
        Some(operation::Result::Response(response)) => ExecuteResponse::decode(response.value.as_slice())
            .map_err(|_| Status::data_loss("an execution's response can't be read")),
        None => Err(Status::data_loss("an execution has no response")),
    }
}

#[cfg(test)]
mod tests {
    use super::*;
    use crate::api::v2::Digest;

    #[test]
    fn servers_share_actions() {
        let server = |name: &str| Server { name: name.into(), authority: String::new(), is_secure: false };
        let servers = ["a", "b", "c"].map(server);
        let first = |hash: usize| {
            let action = Action {
                digest: Digest { hash: hash.to_string(), size_bytes: 0 },
                blobs: Vec::new(),
                outputs: Vec::new(),
                words: Vec::new(),
            };
            let mut turned = servers.clone();
            turned.rotate_left(hash % 3);
            assert_eq!(
                in_order(&turned, &action),
                in_order(&servers, &action),
                "whatever the order is in which a user has them"
            );
            in_order(&servers, &action)[0].name.clone()
        };
        let firsts: Vec<String> = (0..300).map(first).collect();
        for name in ["a", "b", "c"] {
            let count = firsts.iter().filter(|first| *first == name).count();
            assert!((60..140).contains(&count), "{name} is first of {count}");
        }
    }
}
