"""The marks: by crate, and by what a law or call is, the names of those that no page claims (marks.py says what each
mark means). `docs/check.py --contracts CRATE` shows them beside what each says."""
MARKED = {
    "ct_entry": {
        "inner": "DeviceKind::number DeviceKind::numbered DeviceKind::name DeviceKind::takes_bytes",
    },
    "ct_bits": {
        "inner": "field sign extended extended_wide align_up",
    },
    "ct_texts": {
        "inner": "number_of is_name",
    },
    "ct_keyed": {
        "inner": "HashKey::of HashKey::of_digest",
    },
    "ct_port": {
        "inner":
            "DiskFolder::new WriterSink::new FolderMem::new FolderMem::add FolderMem::fail_at FolderMem::read "
            "SinkMem::new SinkMem::bytes SinkMem::fail_at SinkMem::write SteadyFolder::new SteadyFolder::add "
            "SteadyFolder::read SteadySink::new SteadySink::taken SteadySink::write",
    },
    "law_words": {
        "instance":
            "bounds_are_blocks roots_hold_all least_bounds_rows bits_are_permissions removing_load_data "
            "sealing_rows",
        "table": "rights_are_spelled",
    },
    "ct_perm": {
        "inner": "Perms::masked",
    },
    "ct_cap": {
        "inner":
            "turn raise expand shrink Live::address Live::plain Live::integer Live::covers attenuate open "
            "link derive add_address seal_in_place open_in_place untag",
    },
    "ct_isa": {
        "inner": "instruction one_instruction shape",
    },
    "ct_capstep": {
        "inner": "derived upper_offset",
    },
    "ct_source": {
        "inner": "CompactNumber::number CompactTarget::target CompactPart::part",
    },
    "ct_asm": {
        "inner": "Names::new Names::len Names::slot Names::add Object::of_text Object::find",
    },
    "ct_mem": {
        "inner": "Memory::size Memory::marked Memory::next_tagged_below Plain::new",
    },
    "ct_planes": {
        "inner": "Planes::new Planes::bytes Planes::tag_words Planes::mark_words",
    },
    "ct_graph": {
        "inner": "same Graph::of",
    },
    "ct_bus": {
        "inner": "Bus::new Bus::count Bus::holds",
    },
    "ct_flow": {
        "inner": "takes posture_through jumps_on go_through become_link",
    },
    "ct_loadstore": {
        "inner": "filter filter_in_place load_number load_register store_quietly access",
    },
    "ct_decode": {
        "inner": "Decoded::reading operands_of class_of",
    },
    "ct_layout": {
        "inner": "region_length",
    },
    "law_routines": {
        "instance": "heap_computed sweep_computed switch_computed",
    },
    "ct_image_fields": {
        "inner": "name_of read",
    },
    "ct_tables": {
        "inner": "write_export read_export write_import read_import",
    },
    "ct_image_limits": {
        "inner": "limit_fault",
    },
    "ct_image_parts": {
        "inner": "parts_of copied sealed_bytes compartment_bytes library_bytes places_of fields_come_back written",
    },
    "law_image_samples": {
        "instance": "tiny_stands tiny_altered board_stands whole_stands whole_altered",
    },
    "law_answers": {
        "instance": "answers_to_tiny",
    },
    "ct_image": {
        "inner":
            "Image::of Image::parts Image::copy Image::upgraded Image::text Image::init index_fault "
            "region_fault right_fault",
    },
    "law_secret_samples": {
        "instance": "walls_stand",
    },
    "ct_json": {
        "inner":
            "Document::read Document::root Json::as_str Json::as_u64 Json::is_object Json::items Json::keys "
            "Json::get Items::none Items::are_at_most",
    },
    "ct_desc_value": {
        "inner":
            "word_of bytes_of has_kinds keeps_limits has_only text_at number_at list_in list_at has has_text "
            "number_or word_or word_at text_or text_of number_in kind_of posture_of library_posture_of "
            "passes_of service_of members_of inner_lists spots_of Spots::next",
    },
    "law_desc": {
        "instance": "samples_are_judged",
    },
    "ct_desc_rows": {
        "inner": "key_name rows_of target_at Import::target",
    },
    "ct_link_objects": {
        "inner": "objects begin_of are_sourced",
    },
    "ct_link_slots": {
        "inner": "called compartment_slots library_slots",
    },
    "law_link_samples": {
        "instance": "samples_link samples_are_linked",
    },
    "law_report": {
        "instance": "edges_of_three samples_are_reported",
    },
    "ct_entries": {
        "inner": "handlers export_number",
    },
    "ct_script": {
        "inner": "Script::empty Script::bare_steps",
    },
    "ct_policy": {
        "inner": "compartment_named owner_named add_names",
    },
    "ct_chunks": {
        "inner": "carve find read_head chunk_head write_head join set_state paint",
    },
    "ct_heap": {
        "inner": "Heap::new Heap::length Heap::lay Heap::made Heap::quarantined Heap::find Heap::paint Heap::flush",
    },
    "ct_token": {
        "inner":
            "opened Tokens::new Tokens::is_key Tokens::opens Tokens::drop_row Tokens::add_key "
            "Tokens::add_token Tokens::add",
    },
    "ct_revoke": {
        "inner": "Front::idle Front::running Front::at Front::begin Front::finished Front::end sweep_all",
    },
    "ct_areas": {
        "inner": "clear areas_apart push innermost_export take_back pop save resume Thread::new",
    },
    "ct_switch": {
        "inner":
            "head_of return_trap stack_trap first_trap export_of called return_sentry "
            "heads_give is_export_of table_at top_below",
    },
    "ct_handler": {
        "inner": "record_at write_record fresh answer",
    },
    "ct_sched": {
        "inner": "Sched::new Sched::end Sched::status Sched::going Sched::none_is_ready",
    },
    "ct_threads": {
        "inner":
            "access next fetch_trap handle_row value_of read read_ref jump_row "
            "branch_row filter_row begin stop_row pick_row Window::empty Window::holds window_of",
    },
    "ct_burst": {
        "inner": "burst once",
    },
    "ct_engine": {
        "inner":
            "callee_given Engine::start Engine::size Engine::count Engine::running Engine::load "
            "Engine::register Engine::pcc Engine::posture Engine::actor Engine::jump_to Engine::stop "
            "Engine::pick Engine::call Engine::return_to_caller Engine::unwind Engine::handle "
            "Engine::is_handling Engine::end_handler Engine::next Engine::loadstore Engine::allocate "
            "Engine::free Engine::made Engine::remaining Engine::quarantined Engine::window Engine::burst Engine::once "
            "Engine::find Engine::is_key Engine::opens Engine::allocate_sealed Engine::has_sweep Engine::sweep "
            "calls_written ends_written handlers_written sweeps_written",
    },
    "ct_execute": {
        "inner": "execute",
    },
    "ct_services": {
        "inner": "answer",
    },
    "ct_boot": {
        "inner": "launch",
    },
    "ct_machine": {
        "inner": "Known::of Machine::lawful Machine::totals",
    },
    "law_tables": {
        "table":
            "bytes_of_names choices_of_descriptions limits_of_files limits_of_images members_of_descriptions "
            "names_of_registers native_routines numbers_in_images numbers_of_demo numbers_of_traps places_in_ram "
            "ranges_meet rights_of_kinds types_of_seals words_of_statements",
    },
    "law_program": {
        "table": "numbers_of_the_program",
        "instance": "samples_are_told",
    },
    "ct_run": {
        "inner": "write_run write_summary",
    },
    "ct_commands": {
        "inner":
            "read_file read_sources refuse_usage refuse_file refuse_description refuse_link refuse_image "
            "refuse_script refuse_name refuse_policy line Task::reads_image Task::number form_of close",
    },
    "ct_top": {
        "inner": "ready",
    },
    "ct_program": {
        "inner": "words_of run run_all",
    },
}
