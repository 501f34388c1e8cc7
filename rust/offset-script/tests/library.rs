//! The library's calls, and their conditions in `table.py`.
use offset_allocator::Allocator;
use offset_script::{
    json_of, parse, play, run, vma_json_of, Answer, Command, FromRead, Global, IndexWidth, IntoWrite, Player, RunFault, ScriptFault, Sink,
};

#[test]
fn reads_and_plays() {
    let script = parse(Global, b"space 100 nodes 16 index 32\nalloc 10\nfree 1\n").unwrap();
    assert_eq!((script.size, script.max_allocs, script.index), (100, 16, IndexWidth::Bits32));
    assert_eq!(script.commands[..], [Command::Alloc(10), Command::Free(1)]);
    let answers = play::<u32>(Global, script.size, script.max_allocs, &script.commands).unwrap();
    assert!(matches!(answers[..], [Answer::Grant { number: 1, offset: 0 }, Answer::Freed]));
    assert_eq!(parse(Global, b"space 1\n").err(), Some(ScriptFault::BadHeader(1)));
}

#[test]
fn players_take_commands_and_are_asked() {
    let mut player = Player::<u32>::start(Global, 100, 16).unwrap();
    assert!(matches!(player.call(Global, Command::Alloc(10)), Ok(Answer::Grant { number: 1, offset: 0 })));
    assert!(matches!(player.call(Global, Command::Alloc(20)), Ok(Answer::Grant { number: 2, offset: 10 })));
    assert!(matches!(player.call(Global, Command::Free(1)), Ok(Answer::Freed)));
    assert!(matches!(player.call(Global, Command::Free(1)), Ok(Answer::Gone)));
    let (gone, second) = (player.handle(1), player.handle(2));
    assert_eq!((gone, second.map(|it| it.offset), player.handle(3)), (None, Some(10), None));
    assert_eq!(player.handles(), [gone, second]);
    assert_eq!((player.space().live_units(), player.space().allocation_size(second.unwrap())), (20, 20));
    // a handle is copied, but no call takes one, so what is kept stays live
    assert!(matches!(player.call(Global, Command::Reset), Ok(Answer::Reset)));
    assert_eq!(player.handles(), [None, None]);
    assert!(matches!(player.call(Global, Command::Free(2)), Ok(Answer::Gone)));
}

#[test]
fn spaces_as_json() {
    let mut space = Allocator::<u32>::with_max_allocs(Global, 100, 16).unwrap();
    let first = space.allocate(16).unwrap();
    let name = space.allocate(8).unwrap().name();
    space.free(first);
    let wanted = format!(
        "{{\"size\":100,\"max_allocs\":16,\"live_ranges\":1,\"live_units\":8,\"free_blocks\":2,\"free_units\":92,\
         \"largest_free_block\":76,\"largest_free_region\":72,\"unused_nodes\":13,\"blocks\":[{{\"offset\":0,\"size\":16}},\
         {{\"offset\":16,\"size\":8,\"name\":{name}}},{{\"offset\":24,\"size\":76}}]}}"
    );
    assert_eq!(json_of(Global, &space).unwrap().as_str(), wanted);
    let wanted = "{\"General\":{\"API\":\"Vulkan\"},\"DefaultPools\":{\"Type 0\":{\"PreferredBlockSize\":100,\"Blocks\":{\"0\":{\
                  \"TotalBytes\":100,\"UnusedBytes\":92,\"Allocations\":1,\"UnusedRanges\":2,\"Suballocations\":[\
                  {\"Offset\":0,\"Type\":\"FREE\",\"Size\":16},{\"Offset\":16,\"Type\":\"UNKNOWN\",\"Size\":8},\
                  {\"Offset\":24,\"Type\":\"FREE\",\"Size\":76}]}},\"DedicatedAllocations\":[]}}}";
    assert_eq!(vma_json_of(Global, &space).unwrap(), wanted);
}

#[test]
fn runs_over_any_reader_and_writer() {
    let mut input = FromRead::new(&b"space 100 nodes 16 index 16\nalloc 10\n"[..]);
    let mut output = IntoWrite::new(Vec::new());
    run(Global, &mut input, &mut output).unwrap();
    assert_eq!(output.into_inner(), b"grant 1 at 0\n");
    let mut wrong = FromRead::new(&b"x"[..]);
    let fault = run(Global, &mut wrong, &mut IntoWrite::new(Vec::new())).unwrap_err();
    assert_eq!((fault, fault.status()), (RunFault::Script(ScriptFault::BadHeader(1)), 2));
    assert_eq!(fault.to_string(), "line 1: bad header");
}

#[test]
#[should_panic(expected = "max_allocs must be at least 2")]
fn too_few_nodes() {
    let _ = play::<u32>(Global, 10, 1, &[]);
}

#[test]
#[should_panic(expected = "max_allocs must be at most NI::MAX - 2")]
fn too_many_nodes() {
    let _ = play::<u16>(Global, 10, 65_534, &[]);
}

#[test]
#[should_panic(expected = "each alignment must be at least 1")]
fn a_wrong_alignment() {
    let _ = play::<u32>(Global, 10, 4, &[Command::Alloc(1), Command::Align(1, 0)]);
}

#[test]
#[should_panic(expected = "at least one byte must be pushed")]
fn no_byte() {
    IntoWrite::new(Vec::new()).push(&[]);
}
