    #[test]
    #[cfg(unix)]
    fn test_each_ptxas_joins_the_group_that_makes_its_input() {
        let fixture = TestFixture::new();
        for tool in ["gcc", "cicc", "ptxas", "fatbinary"] {
            fixture.mk_bin(tool).unwrap();
        }
        // -gencode arch=compute_75,code=sm_75 -gencode arch=compute_80,code=[sm_80,sm_86]
        let dry_run = format!(
            "#$ PATH={}\n\
             #$ gcc -D__CUDA_ARCH__=750 -E -x c++ k.cu -o k.compute_75.cpp1.ii\n\
             #$ cicc -arch compute_75 k.compute_75.cpp1.ii -o k.compute_75.ptx\n\
             #$ gcc -D__CUDA_ARCH__=800 -E -x c++ k.cu -o k.compute_80.cpp1.ii\n\
             #$ cicc -arch compute_80 k.compute_80.cpp1.ii -o k.compute_80.ptx\n\
             #$ ptxas -arch=sm_80 -m64 k.compute_80.ptx -o k.compute_80.sm_80.cubin\n\
             #$ ptxas -arch=sm_75 -m64 k.compute_75.ptx -o k.compute_75.cubin\n\
             #$ ptxas -arch=sm_86 -m64 k.compute_80.ptx -o k.compute_80.sm_86.cubin\n\
             #$ fatbinary --create=k.fatbin k.compute_75.cubin k.compute_80.sm_80.cubin \
             k.compute_80.sm_86.cubin\n",
            fixture.tempdir.path().display()
        );
        let creator = new_creator();
        for _ in ["for nvcc's tools", "for gcc"] {
            let printed = MockChild::new(exit_status(0), "", &dry_run);
            next_command(&creator, Ok(printed));
        }
        let groups = group_nvcc_subcommands_by_compilation_stage(
            &creator,
            "nvcc".as_ref(),
            &[],
            "-c".as_ref(),
            "/w".as_ref(),
            "/t".as_ref(),
            None,
            &[],
            &NvccHostCompiler::Gcc,
            "k.o".as_ref(),
        );
        let mut made: Vec<Vec<String>> = groups
            .wait()
            .unwrap()
            .iter()
            .map(|group| {
                let last_words = group.iter().filter_map(|cmd| cmd.args.last());
                last_words
                    .filter(|word| word.ends_with(".cubin"))
                    .cloned()
                    .collect()
            })
            .collect();
        // The last group has fatbinary; a map may order the others in any way
        assert_eq!(made.pop().unwrap().len(), 1);
        made.sort();
        let of_80 = ["k.compute_80.sm_80.cubin", "k.compute_80.sm_86.cubin"];
        assert_eq!(made, [vec![], vec!["k.compute_75.cubin"], of_80.to_vec()]);
    }

