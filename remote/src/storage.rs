//! Contents that go to a server and come from there.
use crate::api::bytestream::{ReadRequest, WriteRequest};
use crate::api::rpc;
use crate::api::v2::batch_read_blobs_response::Response;
use crate::api::v2::batch_update_blobs_request::Request;
use crate::api::v2::{BatchReadBlobsRequest, BatchUpdateBlobsRequest, Digest, FindMissingBlobsRequest};
use crate::compression::{Form, packed, unpacked};
use crate::connection::Connection;
use crate::digest::{Blob, digest_of};
use crate::failure::{Failure, is_transient};
use std::collections::{BTreeMap, BTreeSet};
use std::process;
use std::time::{Duration, SystemTime, UNIX_EPOCH};
use tokio::time::{sleep, timeout};
use tonic::{Code, Status};

/// How many bytes a part of a stream has.
const PART: usize = 1 << 20;
/// How many bytes each content adds to a message beside its own.
const AROUND: usize = 128;
/// How long a stream may be silent.
const SILENCE: Duration = Duration::from_secs(60);
/// How often a stream is begun again that broke, and the pause before.
const TRIES: u32 = 3;
const PAUSE: Duration = Duration::from_millis(200);

/// A name that no other upload has: streams of one content don't mix.
fn own_name(number: u32) -> String {
    let time = SystemTime::now().duration_since(UNIX_EPOCH).unwrap_or_default().as_nanos();
    // (as a UUID is written, which the API asks for)
    let digest = digest_of(format!("{} {time} {number}", process::id()).as_bytes()).hash;
    let part = |from: usize, to: usize| digest.get(from..to).unwrap_or_default().to_owned();
    [part(0, 8), part(8, 12), part(12, 16), part(16, 20), part(20, 32)].join("-")
}

fn check(digest: &Digest, status: Option<rpc::Status>) -> Result<(), Failure> {
    let status = status.unwrap_or_default();
    match Code::from(status.code) {
        Code::Ok => Ok(()),
        Code::NotFound => Err(Failure::Evicted(digest.clone())),
        code => Err(Status::new(code, status.message).into()),
    }
}

fn fitting(digest: &Digest, content: Vec<u8>) -> Result<Vec<u8>, Failure> {
    if digest_of(&content) == *digest { Ok(content) } else { Err(Failure::Mismatch(digest.clone())) }
}

/// Lists in a row whose contents fit into a message each.
fn in_messages<T>(all: Vec<T>, most: usize, size: impl Fn(&T) -> usize) -> Vec<Vec<T>> {
    let (mut messages, mut left): (Vec<Vec<T>>, usize) = (Vec::new(), 0);
    for one in all {
        let size = size(&one) + AROUND;
        if let Some(message) = messages.last_mut().filter(|_| size <= left) {
            message.push(one);
        } else {
            messages.push(vec![one]);
            left = most;
        }
        left = left.saturating_sub(size);
    }
    messages
}

fn size_of(digest: &Digest) -> usize {
    usize::try_from(digest.size_bytes).unwrap_or(usize::MAX)
}

impl Connection {
    fn fits_message(&self, digest: &Digest) -> bool {
        size_of(digest).saturating_add(AROUND) <= self.abilities.most_in_message
    }

    /// A content's name in a stream.
    fn resource(&self, before: &str, form: Form, digest: &Digest) -> String {
        let instance = if self.instance.is_empty() { String::new() } else { format!("{}/", self.instance) };
        format!("{instance}{before}{}/{}/{}", form.folder(), digest.hash, digest.size_bytes)
    }

    /// The form in which contents may come, and large ones go.
    fn form(&self) -> Form {
        if self.abilities.has_zstd { Form::Zstd } else { Form::Plain }
    }

    /// Which of these contents the server lacks.
    async fn missing(&self, blobs: &[Blob]) -> Result<BTreeSet<String>, Failure> {
        let digests: BTreeMap<&str, Digest> =
            blobs.iter().map(|blob| (blob.digest.hash.as_str(), blob.digest.clone())).collect();
        let blob_digests: Vec<Digest> = digests.into_values().collect();
        let message = FindMissingBlobsRequest { instance_name: self.instance.clone(), blob_digests };
        let ask = || async { self.contents().find_missing_blobs(self.request(message.clone())).await };
        let answer = self.call(ask).await?;
        Ok(answer.missing_blob_digests.into_iter().map(|digest| digest.hash).collect())
    }

    /// Has the server have these contents: sends those that it lacks.
    pub async fn send(&mut self, blobs: &[Blob]) -> Result<(), Failure> {
        let mut missing = self.missing(blobs).await?;
        let lacking: Vec<&Blob> = blobs.iter().filter(|blob| missing.remove(&blob.digest.hash)).collect();
        let (small, large): (Vec<&Blob>, Vec<&Blob>) =
            lacking.into_iter().partition(|blob| self.fits_message(&blob.digest));
        for message in in_messages(small, self.abilities.most_in_message, |blob| blob.size()) {
            self.send_message(&message).await?;
        }
        for blob in large {
            self.send_stream(blob).await?;
        }
        Ok(())
    }

    async fn send_message(&mut self, blobs: &[&Blob]) -> Result<(), Failure> {
        let request = |blob: &&Blob| {
            let (data, form) = packed(bytes_of(blob)?, self.abilities.takes_zstd);
            Ok(Request { digest: Some(blob.digest.clone()), data, compressor: form.number() })
        };
        let requests = blobs.iter().map(request).collect::<Result<Vec<_>, Failure>>()?;
        let size: u64 = requests.iter().map(|request| request.data.len() as u64).sum();
        let message = BatchUpdateBlobsRequest { instance_name: self.instance.clone(), requests };
        let ask = || async { self.contents().batch_update_blobs(self.request(message.clone())).await };
        let answer = self.call(ask).await?;
        if answer.responses.len() != blobs.len() {
            return Err(Failure::Odd("it answers for other contents than it got".into()));
        }
        for response in answer.responses {
            check(&response.digest.unwrap_or_default(), response.status)?;
        }
        self.sent += size;
        Ok(())
    }

    async fn send_stream(&mut self, blob: &Blob) -> Result<(), Failure> {
        let (content, form) = packed(bytes_of(blob)?, self.abilities.has_zstd);
        let mut tried = 1;
        let committed = loop {
            let name = self.resource(&format!("uploads/{}/", own_name(tried)), form, &blob.digest);
            let parts = parts_of(name, &content);
            let mut streams = self.streams();
            let sent = timeout(SILENCE * 10, streams.write(self.request(tokio_stream::iter(parts)))).await;
            match sent.unwrap_or_else(|_| Err(Status::deadline_exceeded("no answer in time"))) {
                Ok(answer) => break answer.into_inner().committed_size,
                Err(status) if tried < TRIES && is_transient(status.code()) => sleep(PAUSE * tried).await,
                Err(status) => return Err(status.into()),
            }
            tried += 1;
        };
        // (-1: of a compressed content that the server had by then; some count what it was before)
        let size = i64::try_from(content.len()).unwrap_or(i64::MAX);
        if ![size, blob.digest.size_bytes, -1].contains(&committed) {
            return Err(Failure::Odd(format!("it took {committed} bytes of {size}")));
        }
        self.sent += content.len() as u64;
        Ok(())
    }

    /// Gets contents, each checked by its digest, in the order given.
    pub async fn fetch(&mut self, digests: &[Digest]) -> Result<Vec<Vec<u8>>, Failure> {
        let mut contents: BTreeMap<String, Vec<u8>> = BTreeMap::new();
        let wanted: BTreeMap<&str, &Digest> =
            digests.iter().map(|digest| (digest.hash.as_str(), digest)).collect();
        let wanted: Vec<Digest> =
            wanted.into_values().filter(|digest| digest.size_bytes > 0).cloned().collect();
        let (small, large): (Vec<Digest>, Vec<Digest>) =
            wanted.into_iter().partition(|digest| self.fits_message(digest));
        for message in in_messages(small, self.abilities.most_in_message, size_of) {
            contents.extend(self.fetch_message(message).await?);
        }
        for digest in large {
            let content = self.fetch_stream(&digest).await?;
            contents.insert(digest.hash, content);
        }
        let content =
            |digest: &Digest| fitting(digest, contents.get(&digest.hash).cloned().unwrap_or_default());
        digests.iter().map(content).collect()
    }

    async fn fetch_message(&mut self, digests: Vec<Digest>) -> Result<BTreeMap<String, Vec<u8>>, Failure> {
        let message = BatchReadBlobsRequest {
            instance_name: self.instance.clone(),
            digests,
            acceptable_compressors: vec![self.form().number()],
        };
        let ask = || async { self.contents().batch_read_blobs(self.request(message.clone())).await };
        let answer = self.call(ask).await?;
        self.received += answer.responses.iter().map(|response| response.data.len() as u64).sum::<u64>();
        let content = |response: Response| {
            let digest = response.digest.unwrap_or_default();
            check(&digest, response.status)?;
            let content = Form::of(response.compressor)
                .and_then(|form| unpacked(response.data, form, size_of(&digest)))
                .ok_or_else(|| Failure::Mismatch(digest.clone()))?;
            Ok((digest.hash, content))
        };
        answer.responses.into_iter().map(content).collect()
    }

    async fn fetch_stream(&mut self, digest: &Digest) -> Result<Vec<u8>, Failure> {
        let (mut tried, form) = (1, self.form());
        loop {
            match self.try_fetch_stream(digest, form).await {
                Ok(content) => {
                    self.received += content.len() as u64;
                    let content = unpacked(content, form, size_of(digest));
                    return content.ok_or_else(|| Failure::Mismatch(digest.clone()));
                }
                Err(status) if status.code() == Code::NotFound => {
                    return Err(Failure::Evicted(digest.clone()));
                }
                Err(status) if tried < TRIES && is_transient(status.code()) => sleep(PAUSE * tried).await,
                Err(status) => return Err(status.into()),
            }
            tried += 1;
        }
    }

    /// A content as it comes in a form, or the beginning of what is too long.
    async fn try_fetch_stream(&self, digest: &Digest, form: Form) -> Result<Vec<u8>, Status> {
        let silent = |_| Status::deadline_exceeded("no answer in time");
        let resource_name = self.resource("", form, digest);
        let message = ReadRequest { resource_name, read_offset: 0, read_limit: 0 };
        let mut streams = self.streams();
        let mut parts =
            timeout(SILENCE, streams.read(self.request(message))).await.map_err(silent)??.into_inner();
        let mut content = Vec::new();
        while let Some(part) = timeout(SILENCE, parts.message()).await.map_err(silent)?? {
            content.extend(part.data);
            if content.len() > form.most(digest) {
                // (its digest says that it isn't the one)
                return Ok(content);
            }
        }
        Ok(content)
    }
}

/// The messages of a content's stream, of which only the first has its name.
fn parts_of(name: String, content: &[u8]) -> Vec<WriteRequest> {
    let mut name = Some(name);
    let parts = content.chunks(PART).enumerate().map(|(number, part)| {
        let offset = number * PART;
        WriteRequest {
            resource_name: name.take().unwrap_or_default(),
            write_offset: i64::try_from(offset).unwrap_or(i64::MAX),
            finish_write: offset + part.len() == content.len(),
            data: part.to_vec(),
        }
    });
    parts.collect()
}

/// A content that goes to a server.
fn bytes_of(blob: &Blob) -> Result<Vec<u8>, Failure> {
    blob.bytes().map_err(|error| Failure::Disk(blob.path().to_owned(), error))
}

#[cfg(test)]
mod tests {
    use super::*;

    #[test]
    fn contents_are_spread_over_messages() {
        let sizes = |all: &[usize], most: usize| in_messages(all.to_vec(), most, |&size| size);
        assert_eq!(sizes(&[], 1000), Vec::<Vec<usize>>::new());
        assert_eq!(sizes(&[1, 2, 3], 1000), [vec![1, 2, 3]]);
        assert_eq!(sizes(&[500, 300, 200], 1000), [vec![500], vec![300, 200]]);
        assert_eq!(sizes(&[2000, 1], 1000), [vec![2000], vec![1]], "one that fits none has its own");
    }

    #[test]
    fn a_stream_has_all_bytes_and_one_name() {
        let content: Vec<u8> = (0..PART * 2 + 5).map(|number| u8::try_from(number % 251).unwrap()).collect();
        let parts = parts_of("name".into(), &content);
        assert_eq!(parts.iter().flat_map(|part| part.data.clone()).collect::<Vec<_>>(), content);
        let ends: Vec<bool> = parts.iter().map(|part| part.finish_write).collect();
        let names: Vec<&str> = parts.iter().map(|part| part.resource_name.as_str()).collect();
        assert_eq!((ends, names), (vec![false, false, true], vec!["name", "", ""]));
        assert_eq!(parts[2].write_offset, 2 << 20);
    }

    #[test]
    fn names_of_uploads_differ_and_look_like_uuids() {
        let [one, other] = [own_name(1), own_name(2)];
        assert_ne!(one, other);
        assert_eq!(one.split('-').map(str::len).collect::<Vec<_>>(), [8, 4, 4, 4, 12]);
    }
}
