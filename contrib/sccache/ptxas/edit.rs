.find(|cmds| {
                    // Several ptxas commands may read one .ptx file, so the cicc command that
                    // makes it isn't always the last of its group
                    cmds.iter()
                        .any(|cmd| cmd.args.last() == Some(INPUT))
                })
