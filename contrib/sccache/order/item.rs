/// The groups of commands that compile for a device, each with the name of what its preprocessor
/// writes, in the order in which nvcc lists them. What one group writes a later one may read.
#[derive(Default)]
struct DeviceGroups(Vec<(String, Vec<NvccGeneratedSubcommand>)>);

impl DeviceGroups {
    fn get_mut(&mut self, name: &str) -> Option<&mut Vec<NvccGeneratedSubcommand>> {
        let mut named = self.0.iter_mut().filter(|(other, _)| other == name);
        named.next().map(|(_, group)| group)
    }

    fn values_mut(&mut self) -> impl Iterator<Item = &mut Vec<NvccGeneratedSubcommand>> {
        self.0.iter_mut().map(|(_, group)| group)
    }

    fn into_values(self) -> impl Iterator<Item = Vec<NvccGeneratedSubcommand>> {
        self.0.into_iter().map(|(_, group)| group)
    }

    /// Begins a group. One with this name keeps its place, and loses its commands.
    fn insert(&mut self, name: String, group: Vec<NvccGeneratedSubcommand>) {
        match self.get_mut(&name) {
            Some(before) => *before = group,
            None => self.0.push((name, group)),
        }
    }
}

