"""Names for the numbers that the program prints: statuses of faults (C706, appendix E), reasons of refused binds, faults and
rules of interface texts."""

STATUS_NAMES = {
    0x1C000001: "nca_s_fault_int_div_by_zero",
    0x1C000002: "nca_s_fault_addr_error",
    0x1C000003: "nca_s_fault_fp_div_zero",
    0x1C000004: "nca_s_fault_fp_underflow",
    0x1C000005: "nca_s_fault_fp_overflow",
    0x1C000006: "nca_s_fault_invalid_tag",
    0x1C000007: "nca_s_fault_invalid_bound",
    0x1C000008: "nca_s_rpc_version_mismatch",
    0x1C000009: "nca_s_unspec_reject",
    0x1C00000A: "nca_s_bad_actid",
    0x1C00000B: "nca_s_who_are_you_failed",
    0x1C00000C: "nca_s_manager_not_entered",
    0x1C00000D: "nca_s_fault_cancel",
    0x1C00000E: "nca_s_fault_ill_inst",
    0x1C00000F: "nca_s_fault_fp_error",
    0x1C000010: "nca_s_fault_int_overflow",
    0x1C000012: "nca_s_fault_unspec",
    0x1C000013: "nca_s_fault_remote_comm_failure",
    0x1C000014: "nca_s_fault_pipe_empty",
    0x1C000015: "nca_s_fault_pipe_closed",
    0x1C000016: "nca_s_fault_pipe_order",
    0x1C000017: "nca_s_fault_pipe_discipline",
    0x1C000018: "nca_s_fault_pipe_comm_error",
    0x1C000019: "nca_s_fault_pipe_memory",
    0x1C00001A: "nca_s_fault_context_mismatch",
    0x1C00001B: "nca_s_fault_remote_no_memory",
    0x1C00001C: "nca_s_invalid_pres_context_id",
    0x1C00001D: "nca_s_unsupported_authn_level",
    0x1C00001F: "nca_s_invalid_checksum",
    0x1C000020: "nca_s_invalid_crc",
    0x1C000021: "nca_s_fault_user_defined",
    0x1C000022: "nca_s_fault_tx_open_failed",
    0x1C000023: "nca_s_fault_codeset_conv_error",
    0x1C000024: "nca_s_fault_object_not_found",
    0x1C000025: "nca_s_fault_no_client_stub",
    0x1C010001: "nca_s_comm_failure",
    0x1C010002: "nca_s_op_rng_error",
    0x1C010003: "nca_s_unk_if",
    0x1C010006: "nca_s_wrong_boot_time",
    0x1C010009: "nca_s_you_crashed",
    0x1C01000B: "nca_s_proto_error",
    0x1C010013: "nca_s_out_args_too_big",
    0x1C010014: "nca_s_server_too_busy",
    0x1C010015: "nca_s_fault_string_too_long",
    0x1C010017: "nca_s_unsupported_type",
    0x16C9A0D6: "ept_s_not_registered",
}

# What those mean that a server of this program sends.
STATUS_MEANINGS = {
    0x1C010002: "the interface has no operation of that number",
    0x1C01000B: "the octets that came break the protocol, or the stub isn't one of the operation",
    0x1C010014: "a limit of the association group is reached: 256 calls that wait or run, or 65536 handles",
    0x1C000006: "the tag of a union has no arm",
    0x1C000007: "a count or a range in the stub is out of its bounds",
    0x1C00000D: "the call was cancelled",
    0x1C000012: "the manager failed for a reason of its own",
    0x1C00001A: "a context handle of the call isn't live in this group, is of another kind, or is named twice",
    0x1C00001B: "the server has no memory for the call",
    0x1C00001C: "the request's presentation context wasn't accepted",
    0x16C9A0D6: "the endpoint map has no such entry",
}

# Reasons of a bind_nak, and, from 16 on, of the result of a presentation context that wasn't accepted.
REFUSALS = {
    0: "reason_not_specified: there is no such group, or the bind's fragments are too small",
    1: "temporary_congestion: the server has no memory for it",
    2: "local_limit_exceeded: no further group can be opened, or the group takes no further connection",
    3: "called_paddr_unknown",
    4: "protocol_version_not_supported",
    5: "default_context_not_supported",
    6: "user_data_not_readable",
    7: "no_psap_available",
    16: "the context wasn't accepted, for no reason given",
    17: "abstract_syntax_not_supported: the server doesn't offer this interface in this version",
    18: "proposed_transfer_syntaxes_not_supported: the server doesn't take NDR",
    19: "local_limit_exceeded: too many presentation contexts",
}

IDL_FAULTS = {
    1: "BadToken: here begins no token, or a token or comment that isn't finished",
    2: "Expected: the grammar doesn't allow this here",
    3: "TooLarge: the number is too large for its type",
    4: "TooDeep: brackets nest deeper than 64 levels",
    5: "Memory: memory ran out",
}

IDL_RULES = {
    1: "Unknown: this name isn't declared before",
    2: "Duplicate: this name is declared twice",
    3: "BadAttribute: this attribute stands twice, has no meaning here, or one that is needed is missing",
    4: "SizeName: a size or a tag must name an integer of the same list, [in] where it is sent",
    5: "HandleUse: a context handle is void *, and used as [in] by value or through one ref pointer as [out]; handle_t "
    "is the first parameter",
    6: "TooManyHandles: an operation has at most four context handles",
    7: "Recursion: a structure holds itself without a pointer between",
    8: "UnionTag: the union's tag is of no type for it, a case is outside it or stands twice, or it has no switch",
    9: "OutsideProfile: this is outside what the program takes of the language",
}


def status(word):
    """A fault's status in words: its name, and what it means where a server of this program sends it."""
    number = int(word, 16)
    name = STATUS_NAMES.get(number)
    if name is None:
        return f"0x{number:08x}, which is no status of C706: the manager's own"
    meaning = STATUS_MEANINGS.get(number)
    return f"{name}: {meaning}" if meaning else name
