//! Says what a storage of buildbox's has: for each action with a result its digest, the digest of its input
//! root, its words, variables and outputs, as a line that Python reads. For the tests.
use prost::Message;
use std::error::Error;
use std::path::{Path, PathBuf};
use std::{env, fs};
use zigrunk_remote::api::v2::{Action, Command, Digest};

/// The message with a digest.
fn message<T: Message + Default>(storage: &Path, hash: &str) -> Result<(T, usize), Box<dyn Error>> {
    let content = fs::read(storage.join("cas/objects").join(&hash[..2]).join(&hash[2..]))?;
    Ok((T::decode(content.as_slice())?, content.len()))
}

fn shown(digest: &Digest) -> String {
    format!("{}/{}", digest.hash, digest.size_bytes)
}

fn main() -> Result<(), Box<dyn Error>> {
    let storage = PathBuf::from(env::args_os().nth(1).ok_or("expected a folder")?);
    for folder in fs::read_dir(storage.join("actioncache/objects"))? {
        for file in fs::read_dir(folder?.path())? {
            let path = file?.path();
            let name = path.iter().rev().take(2).filter_map(|part| part.to_str()).collect::<Vec<_>>();
            let hash = format!("{}{}", name[1], name[0]);
            let (action, size) = message::<Action>(&storage, &hash)?;
            let (command, _) = message::<Command>(&storage, &action.command_digest.unwrap_or_default().hash)?;
            let root = shown(&action.input_root_digest.unwrap_or_default());
            let variables: Vec<String> = command
                .environment_variables
                .iter()
                .map(|one| format!("{}={}", one.name, one.value))
                .collect();
            println!(
                "{:?}",
                (format!("{hash}/{size}"), root, command.arguments, variables, command.output_paths)
            );
        }
    }
    Ok(())
}
