! Checkpoints, garbage collection and recovery lines of message-passing runs: the functions of lemidrosy.h for Fortran.
!
! A state is lemidrosy_words words of 16 bits in the caller's memory: store them, copy them, hand in any words at all. Every
! function judges them first. Lists carry their own size; one that has too few entries is refused with 3. What is written goes to
! the front of a list, and its rest is left as it was. A refused call leaves every word and every entry as it was; only a refused
! start makes the words zero. Every function is re-entrant: threads may call any of them at the same time, on words and lists that
! nobody else writes.
!
! Processes and checkpoints are counted from 0, as everywhere in the library: entry p + 1 of an array is that of process p. A set
! is a number whose bit p stands for process p. Negative numbers are judged as the numbers that their bits are without a sign, so
! they are out of range.
module lemidrosy
    use, intrinsic :: iso_c_binding, only: c_bool, c_char, c_f_pointer, c_int, c_int8_t, c_int16_t, c_int32_t, c_int64_t, &
        c_null_char, c_ptr, c_size_t
    implicit none
    private

    ! the kind of a word; how many words a state is; processes of a run and messages under way, at most
    integer, parameter, public :: lemidrosy_word = c_int16_t
    integer, parameter, public :: lemidrosy_words = 6464
    integer, parameter, public :: lemidrosy_max_processes = 16
    integer, parameter, public :: lemidrosy_max_under_way = 64
    ! the sizes of lists that are enough for every run: of deletions, of kept checkpoints, of messages, of numbers, of the
    ! progress of a replay
    integer, parameter, public :: lemidrosy_deletions_size = 512
    integer, parameter, public :: lemidrosy_kept_size = 48
    integer, parameter, public :: lemidrosy_messages_size = 192
    integer, parameter, public :: lemidrosy_numbers_size = 5
    integer, parameter, public :: lemidrosy_progress_size = 3
    ! the bytes of a saved state
    integer, parameter, public :: lemidrosy_saved_size = 12942

    ! The numbers of the refusals; 6 is not used. lemidrosy.h says when each is given.
    enum, bind(c)
        enumerator :: lemidrosy_accepted = 0
        enumerator :: lemidrosy_count_outside_range = 1
        enumerator :: lemidrosy_unsound_state = 2
        enumerator :: lemidrosy_list_too_short = 3
        enumerator :: lemidrosy_no_such_process = 4
        enumerator :: lemidrosy_sender_is_receiver = 5
        enumerator :: lemidrosy_no_such_failed_process = 7
        enumerator :: lemidrosy_not_under_way = 8
        enumerator :: lemidrosy_too_many_under_way = 9
        enumerator :: lemidrosy_message_numbers_used = 10
        enumerator :: lemidrosy_intervals_used = 11
        enumerator :: lemidrosy_no_first_byte = 12
        enumerator :: lemidrosy_left_over_bytes = 13
        enumerator :: lemidrosy_malformed_record = 14
        enumerator :: lemidrosy_block_count_outside_range = 15
        enumerator :: lemidrosy_blocks_used = 16
        enumerator :: lemidrosy_too_many_records = 17
        enumerator :: lemidrosy_unfit_named_list = 18
        enumerator :: lemidrosy_not_kept = 19
        enumerator :: lemidrosy_causally_ordered = 20
        enumerator :: lemidrosy_buffer_too_short = 21
        enumerator :: lemidrosy_trial_outside_range = 22
        enumerator :: lemidrosy_halves_mismatch = 23
        enumerator :: lemidrosy_neither_ready = 24
        enumerator :: lemidrosy_denied = 25
    end enum
    public :: lemidrosy_accepted, lemidrosy_count_outside_range, lemidrosy_unsound_state, lemidrosy_list_too_short, &
        lemidrosy_no_such_process, lemidrosy_sender_is_receiver, lemidrosy_no_such_failed_process, lemidrosy_not_under_way, &
        lemidrosy_too_many_under_way, lemidrosy_message_numbers_used, lemidrosy_intervals_used, lemidrosy_no_first_byte, &
        lemidrosy_left_over_bytes, lemidrosy_malformed_record, lemidrosy_block_count_outside_range, lemidrosy_blocks_used, &
        lemidrosy_too_many_records, lemidrosy_unfit_named_list, lemidrosy_not_kept, lemidrosy_causally_ordered, &
        lemidrosy_buffer_too_short, lemidrosy_trial_outside_range, lemidrosy_halves_mismatch, lemidrosy_neither_ready, &
        lemidrosy_denied

    ! The roles of the console's callers.
    enum, bind(c)
        enumerator :: lemidrosy_operator = 0
        enumerator :: lemidrosy_job_owner = 1
        enumerator :: lemidrosy_viewer = 2
    end enum
    public :: lemidrosy_operator, lemidrosy_job_owner, lemidrosy_viewer

    ! What a call answers: the number of the refusal, 0 if it was accepted; how many checkpoints were deleted; the value, if there
    ! is one; the set of vector entries that rose, of a delivery.
    type, public :: lemidrosy_answer
        integer(c_int32_t) :: refused = 0
        integer(c_int32_t) :: deletions = 0
        logical :: has_value = .false.
        integer(c_int32_t) :: value = 0
        integer(c_int32_t) :: rose = 0
    end type

    ! The verdict on a trace: whether a pair of states breaks trackability, and which; 0 where none does.
    type, public :: lemidrosy_verdict
        integer(c_int32_t) :: refused = 0
        logical :: breaks = .false.
        integer(c_int32_t) :: near_process = 0, near_index = 0, far_process = 0, far_index = 0
    end type

    public :: lemidrosy_refusal_text, lemidrosy_is_sound
    public :: lemidrosy_start, lemidrosy_checkpoint, lemidrosy_send, lemidrosy_deliver, lemidrosy_lose, lemidrosy_recover
    public :: lemidrosy_replay
    public :: lemidrosy_line, lemidrosy_earliest, lemidrosy_lost
    public :: lemidrosy_record_start, lemidrosy_record_checkpoint, lemidrosy_record_send, lemidrosy_record_deliver
    public :: lemidrosy_record_lose, lemidrosy_record_recover
    public :: lemidrosy_console_start, lemidrosy_console_checkpoint, lemidrosy_console_send, lemidrosy_console_deliver
    public :: lemidrosy_console_lose, lemidrosy_console_line, lemidrosy_console_recover, lemidrosy_console_earliest
    public :: lemidrosy_console_list, lemidrosy_console_counts
    public :: lemidrosy_numbers, lemidrosy_vector, lemidrosy_pins, lemidrosy_kept, lemidrosy_messages, lemidrosy_carried
    public :: lemidrosy_save, lemidrosy_load, lemidrosy_store_file, lemidrosy_load_file
    public :: lemidrosy_judge, lemidrosy_merge, lemidrosy_simulate

    interface
        function c_refusal_text(number) bind(c, name="lemidrosy_refusal_text") result(text)
            import :: c_int, c_ptr
            integer(c_int), value :: number
            type(c_ptr) :: text
        end function

        function c_is_sound(words, length) bind(c, name="lemidrosy_is_sound") result(sound)
            import :: c_bool, c_int16_t, c_size_t
            integer(c_int16_t), intent(in) :: words(*)
            integer(c_size_t), value :: length
            logical(c_bool) :: sound
        end function

        function c_start(words, length, n, counts, room) bind(c, name="lemidrosy_start") result(answer)
            import :: c_int16_t, c_int32_t, c_int64_t, c_size_t
            integer(c_int16_t), intent(inout) :: words(*)
            integer(c_size_t), value :: length, n, room
            integer(c_int32_t), intent(in) :: counts(*)
            integer(c_int64_t) :: answer
        end function

        function c_checkpoint(words, length, process, deleted, room) bind(c, name="lemidrosy_checkpoint") result(answer)
            import :: c_int16_t, c_int64_t, c_size_t
            integer(c_int16_t), intent(inout) :: words(*), deleted(*)
            integer(c_size_t), value :: length, process, room
            integer(c_int64_t) :: answer
        end function

        function c_send(words, length, sender, receiver) bind(c, name="lemidrosy_send") result(answer)
            import :: c_int16_t, c_int64_t, c_size_t
            integer(c_int16_t), intent(inout) :: words(*)
            integer(c_size_t), value :: length, sender, receiver
            integer(c_int64_t) :: answer
        end function

        function c_deliver(words, length, message, deleted, room) bind(c, name="lemidrosy_deliver") result(answer)
            import :: c_int16_t, c_int32_t, c_int64_t, c_size_t
            integer(c_int16_t), intent(inout) :: words(*), deleted(*)
            integer(c_size_t), value :: length, room
            integer(c_int32_t), value :: message
            integer(c_int64_t) :: answer
        end function

        function c_lose(words, length, message) bind(c, name="lemidrosy_lose") result(answer)
            import :: c_int16_t, c_int32_t, c_int64_t, c_size_t
            integer(c_int16_t), intent(inout) :: words(*)
            integer(c_size_t), value :: length
            integer(c_int32_t), value :: message
            integer(c_int64_t) :: answer
        end function

        function c_recover(words, length, failed, deleted, deleted_room, line, line_room) bind(c, name="lemidrosy_recover") &
            result(answer)
            import :: c_int16_t, c_int32_t, c_int64_t, c_size_t
            integer(c_int16_t), intent(inout) :: words(*), deleted(*), line(*)
            integer(c_size_t), value :: length, deleted_room, line_room
            integer(c_int32_t), value :: failed
            integer(c_int64_t) :: answer
        end function

        function c_record_start(words, length, n, counts, room, buffer, bytes, place, places) &
            bind(c, name="lemidrosy_record_start") result(answer)
            import :: c_int8_t, c_int16_t, c_int32_t, c_int64_t, c_size_t
            integer(c_int16_t), intent(inout) :: words(*)
            integer(c_size_t), value :: length, n, room, bytes, places
            integer(c_int32_t), intent(in) :: counts(*)
            integer(c_int8_t), intent(inout) :: buffer(*)
            integer(c_int64_t), intent(inout) :: place
            integer(c_int64_t) :: answer
        end function

        function c_record_checkpoint(words, length, process, deleted, room, buffer, bytes, place, places) &
            bind(c, name="lemidrosy_record_checkpoint") result(answer)
            import :: c_int8_t, c_int16_t, c_int64_t, c_size_t
            integer(c_int16_t), intent(inout) :: words(*), deleted(*)
            integer(c_size_t), value :: length, process, room, bytes, places
            integer(c_int8_t), intent(inout) :: buffer(*)
            integer(c_int64_t), intent(inout) :: place
            integer(c_int64_t) :: answer
        end function

        function c_record_send(words, length, sender, receiver, buffer, bytes, place, places) &
            bind(c, name="lemidrosy_record_send") result(answer)
            import :: c_int8_t, c_int16_t, c_int64_t, c_size_t
            integer(c_int16_t), intent(inout) :: words(*)
            integer(c_size_t), value :: length, sender, receiver, bytes, places
            integer(c_int8_t), intent(inout) :: buffer(*)
            integer(c_int64_t), intent(inout) :: place
            integer(c_int64_t) :: answer
        end function

        function c_record_deliver(words, length, message, deleted, room, buffer, bytes, place, places) &
            bind(c, name="lemidrosy_record_deliver") result(answer)
            import :: c_int8_t, c_int16_t, c_int32_t, c_int64_t, c_size_t
            integer(c_int16_t), intent(inout) :: words(*), deleted(*)
            integer(c_size_t), value :: length, room, bytes, places
            integer(c_int32_t), value :: message
            integer(c_int8_t), intent(inout) :: buffer(*)
            integer(c_int64_t), intent(inout) :: place
            integer(c_int64_t) :: answer
        end function

        function c_record_lose(words, length, message, buffer, bytes, place, places) &
            bind(c, name="lemidrosy_record_lose") result(answer)
            import :: c_int8_t, c_int16_t, c_int32_t, c_int64_t, c_size_t
            integer(c_int16_t), intent(inout) :: words(*)
            integer(c_size_t), value :: length, bytes, places
            integer(c_int32_t), value :: message
            integer(c_int8_t), intent(inout) :: buffer(*)
            integer(c_int64_t), intent(inout) :: place
            integer(c_int64_t) :: answer
        end function

        function c_record_recover(words, length, failed, deleted, deleted_room, line, line_room, buffer, bytes, place, places) &
            bind(c, name="lemidrosy_record_recover") result(answer)
            import :: c_int8_t, c_int16_t, c_int32_t, c_int64_t, c_size_t
            integer(c_int16_t), intent(inout) :: words(*), deleted(*), line(*)
            integer(c_size_t), value :: length, deleted_room, line_room, bytes, places
            integer(c_int32_t), value :: failed
            integer(c_int8_t), intent(inout) :: buffer(*)
            integer(c_int64_t), intent(inout) :: place
            integer(c_int64_t) :: answer
        end function

        function c_console_start(role, owned, words, length, n, counts, room) &
            bind(c, name="lemidrosy_console_start") result(answer)
            import :: c_int16_t, c_int32_t, c_int64_t, c_size_t
            integer(c_int32_t), value :: role, owned
            integer(c_int16_t), intent(inout) :: words(*)
            integer(c_size_t), value :: length, n, room
            integer(c_int32_t), intent(in) :: counts(*)
            integer(c_int64_t) :: answer
        end function

        function c_console_checkpoint(role, owned, words, length, process, deleted, room) &
            bind(c, name="lemidrosy_console_checkpoint") result(answer)
            import :: c_int16_t, c_int32_t, c_int64_t, c_size_t
            integer(c_int32_t), value :: role, owned
            integer(c_int16_t), intent(inout) :: words(*), deleted(*)
            integer(c_size_t), value :: length, process, room
            integer(c_int64_t) :: answer
        end function

        function c_console_send(role, owned, words, length, sender, receiver) &
            bind(c, name="lemidrosy_console_send") result(answer)
            import :: c_int16_t, c_int32_t, c_int64_t, c_size_t
            integer(c_int32_t), value :: role, owned
            integer(c_int16_t), intent(inout) :: words(*)
            integer(c_size_t), value :: length, sender, receiver
            integer(c_int64_t) :: answer
        end function

        function c_console_deliver(role, owned, words, length, message, deleted, room) &
            bind(c, name="lemidrosy_console_deliver") result(answer)
            import :: c_int16_t, c_int32_t, c_int64_t, c_size_t
            integer(c_int32_t), value :: role, owned
            integer(c_int16_t), intent(inout) :: words(*), deleted(*)
            integer(c_size_t), value :: length, room
            integer(c_int32_t), value :: message
            integer(c_int64_t) :: answer
        end function

        function c_console_lose(role, owned, words, length, message) &
            bind(c, name="lemidrosy_console_lose") result(answer)
            import :: c_int16_t, c_int32_t, c_int64_t, c_size_t
            integer(c_int32_t), value :: role, owned
            integer(c_int16_t), intent(inout) :: words(*)
            integer(c_size_t), value :: length
            integer(c_int32_t), value :: message
            integer(c_int64_t) :: answer
        end function

        function c_console_line(role, owned, words, length, failed, line, room) &
            bind(c, name="lemidrosy_console_line") result(answer)
            import :: c_int16_t, c_int32_t, c_int64_t, c_size_t
            integer(c_int32_t), value :: role, owned
            integer(c_int16_t), intent(in) :: words(*)
            integer(c_size_t), value :: length, room
            integer(c_int32_t), value :: failed
            integer(c_int16_t), intent(inout) :: line(*)
            integer(c_int64_t) :: answer
        end function

        function c_console_recover(role, owned, words, length, failed, deleted, deleted_room, line, line_room) &
            bind(c, name="lemidrosy_console_recover") result(answer)
            import :: c_int16_t, c_int32_t, c_int64_t, c_size_t
            integer(c_int32_t), value :: role, owned
            integer(c_int16_t), intent(inout) :: words(*), deleted(*), line(*)
            integer(c_size_t), value :: length, deleted_room, line_room
            integer(c_int32_t), value :: failed
            integer(c_int64_t) :: answer
        end function

        function c_console_earliest(role, owned, words, length, named, many, line, room) &
            bind(c, name="lemidrosy_console_earliest") result(answer)
            import :: c_int16_t, c_int32_t, c_int64_t, c_size_t
            integer(c_int32_t), value :: role, owned
            integer(c_int16_t), intent(in) :: words(*)
            integer(c_size_t), value :: length, many, room
            integer(c_int32_t), intent(in) :: named(*)
            integer(c_int16_t), intent(inout) :: line(*)
            integer(c_int64_t) :: answer
        end function

        function c_console_list(role, owned, words, length, deleted, room) &
            bind(c, name="lemidrosy_console_list") result(answer)
            import :: c_int16_t, c_int32_t, c_int64_t, c_size_t
            integer(c_int32_t), value :: role, owned
            integer(c_int16_t), intent(in) :: words(*)
            integer(c_size_t), value :: length, room
            integer(c_int16_t), intent(inout) :: deleted(*)
            integer(c_int64_t) :: answer
        end function

        function c_console_counts(role, owned, words, length, counts, room) &
            bind(c, name="lemidrosy_console_counts") result(answer)
            import :: c_int16_t, c_int32_t, c_int64_t, c_size_t
            integer(c_int32_t), value :: role, owned
            integer(c_int16_t), intent(in) :: words(*)
            integer(c_size_t), value :: length, room
            integer(c_int16_t), intent(inout) :: counts(*)
            integer(c_int64_t) :: answer
        end function

        function c_lost(words, length, failed, messages, room) bind(c, name="lemidrosy_lost") result(answer)
            import :: c_int16_t, c_int32_t, c_int64_t, c_size_t
            integer(c_int16_t), intent(in) :: words(*)
            integer(c_size_t), value :: length, room
            integer(c_int32_t), value :: failed
            integer(c_int32_t), intent(inout) :: messages(*)
            integer(c_int64_t) :: answer
        end function

        function c_line(words, length, failed, line, room) bind(c, name="lemidrosy_line") result(answer)
            import :: c_int16_t, c_int32_t, c_int64_t, c_size_t
            integer(c_int16_t), intent(in) :: words(*)
            integer(c_size_t), value :: length, room
            integer(c_int32_t), value :: failed
            integer(c_int16_t), intent(inout) :: line(*)
            integer(c_int64_t) :: answer
        end function

        function c_earliest(words, length, named, many, line, room) bind(c, name="lemidrosy_earliest") result(answer)
            import :: c_int16_t, c_int32_t, c_int64_t, c_size_t
            integer(c_int16_t), intent(in) :: words(*)
            integer(c_size_t), value :: length, many, room
            integer(c_int32_t), intent(in) :: named(*)
            integer(c_int16_t), intent(inout) :: line(*)
            integer(c_int64_t) :: answer
        end function

        function c_numbers(words, length, numbers, room) bind(c, name="lemidrosy_numbers") result(answer)
            import :: c_int16_t, c_int64_t, c_size_t
            integer(c_int16_t), intent(in) :: words(*)
            integer(c_size_t), value :: length, room
            integer(c_int64_t), intent(inout) :: numbers(*)
            integer(c_int64_t) :: answer
        end function

        function c_vector(words, length, process, vector, room) bind(c, name="lemidrosy_vector") result(answer)
            import :: c_int16_t, c_int64_t, c_size_t
            integer(c_int16_t), intent(in) :: words(*)
            integer(c_size_t), value :: length, process, room
            integer(c_int16_t), intent(inout) :: vector(*)
            integer(c_int64_t) :: answer
        end function

        function c_pins(words, length, process, pins, room) bind(c, name="lemidrosy_pins") result(answer)
            import :: c_int16_t, c_int64_t, c_size_t
            integer(c_int16_t), intent(in) :: words(*)
            integer(c_size_t), value :: length, process, room
            integer(c_int16_t), intent(inout) :: pins(*)
            integer(c_int64_t) :: answer
        end function

        function c_kept(words, length, process, kept, room) bind(c, name="lemidrosy_kept") result(answer)
            import :: c_int16_t, c_int32_t, c_int64_t, c_size_t
            integer(c_int16_t), intent(in) :: words(*)
            integer(c_size_t), value :: length, process, room
            integer(c_int32_t), intent(inout) :: kept(*)
            integer(c_int64_t) :: answer
        end function

        function c_messages(words, length, messages, room) bind(c, name="lemidrosy_messages") result(answer)
            import :: c_int16_t, c_int32_t, c_int64_t, c_size_t
            integer(c_int16_t), intent(in) :: words(*)
            integer(c_size_t), value :: length, room
            integer(c_int32_t), intent(inout) :: messages(*)
            integer(c_int64_t) :: answer
        end function

        function c_carried(words, length, message, vector, room) bind(c, name="lemidrosy_carried") result(answer)
            import :: c_int16_t, c_int32_t, c_int64_t, c_size_t
            integer(c_int16_t), intent(in) :: words(*)
            integer(c_size_t), value :: length, room
            integer(c_int32_t), value :: message
            integer(c_int16_t), intent(inout) :: vector(*)
            integer(c_int64_t) :: answer
        end function

        function c_replay(words, length, all, done, records, many, text, room, progress, progress_room) &
            bind(c, name="lemidrosy_replay") result(answer)
            import :: c_bool, c_char, c_int8_t, c_int16_t, c_int64_t, c_size_t
            integer(c_int16_t), intent(inout) :: words(*)
            integer(c_size_t), value :: length, many, room, progress_room
            logical(c_bool), value :: all
            integer(c_int64_t), value :: done
            integer(c_int8_t), intent(in) :: records(*)
            character(kind=c_char), intent(inout) :: text(*)
            integer(c_int64_t), intent(inout) :: progress(*)
            integer(c_int64_t) :: answer
        end function

        function c_save(words, length, bytes, room) bind(c, name="lemidrosy_save") result(answer)
            import :: c_int8_t, c_int16_t, c_int64_t, c_size_t
            integer(c_int16_t), intent(in) :: words(*)
            integer(c_size_t), value :: length, room
            integer(c_int8_t), intent(inout) :: bytes(*)
            integer(c_int64_t) :: answer
        end function

        function c_load(bytes, many, words, length) bind(c, name="lemidrosy_load") result(answer)
            import :: c_int8_t, c_int16_t, c_int64_t, c_size_t
            integer(c_int8_t), intent(in) :: bytes(*)
            integer(c_size_t), value :: many, length
            integer(c_int16_t), intent(inout) :: words(*)
            integer(c_int64_t) :: answer
        end function

        function c_store_file(path, words) bind(c, name="lemidrosy_store_file") result(status)
            import :: c_char, c_int, c_int16_t
            character(kind=c_char), intent(in) :: path(*)
            integer(c_int16_t), intent(in) :: words(*)
            integer(c_int) :: status
        end function

        function c_load_file(path, words) bind(c, name="lemidrosy_load_file") result(status)
            import :: c_char, c_int, c_int16_t
            character(kind=c_char), intent(in) :: path(*)
            integer(c_int16_t), intent(inout) :: words(*)
            integer(c_int) :: status
        end function

        function c_judge(trace, length) bind(c, name="lemidrosy_judge") result(verdict)
            import :: c_int8_t, c_int64_t, c_size_t
            integer(c_int8_t), intent(in) :: trace(*)
            integer(c_size_t), value :: length
            integer(c_int64_t) :: verdict
        end function

        function c_merge(first, first_length, second, second_length, set, trace, room) bind(c, name="lemidrosy_merge") &
            result(answer)
            import :: c_int8_t, c_int32_t, c_int64_t, c_size_t
            integer(c_int8_t), intent(in) :: first(*), second(*)
            integer(c_size_t), value :: first_length, second_length, room
            integer(c_int32_t), value :: set
            integer(c_int8_t), intent(inout) :: trace(*)
            integer(c_int64_t) :: answer
        end function

        function c_simulate(n, spacing, steps, seed, figures, room) bind(c, name="lemidrosy_simulate") result(answer)
            import :: c_int32_t, c_int64_t, c_size_t
            integer(c_size_t), value :: n, room
            integer(c_int32_t), value :: spacing, steps, seed
            integer(c_int64_t), intent(inout) :: figures(*)
            integer(c_int64_t) :: answer
        end function

        function c_strlen(text) bind(c, name="strlen") result(length)
            import :: c_ptr, c_size_t
            type(c_ptr), value :: text
            integer(c_size_t) :: length
        end function
    end interface

contains

    ! A refusal's number in words. Any number has a text.
    function lemidrosy_refusal_text(number) result(text)
        integer(c_int32_t), intent(in) :: number
        character(len=:), allocatable :: text
        character(kind=c_char), pointer :: letters(:)
        type(c_ptr) :: found
        integer :: k

        found = c_refusal_text(int(number, c_int))
        call c_f_pointer(found, letters, [c_strlen(found)])
        allocate (character(len=size(letters)) :: text)
        do k = 1, size(letters)
            text(k:k) = letters(k)
        end do
    end function

    ! Whether the words stand for a sound state.
    function lemidrosy_is_sound(words) result(sound)
        integer(c_int16_t), contiguous, intent(in) :: words(:)
        logical :: sound

        sound = c_is_sound(words, length_of(words))
    end function

    ! A run of n processes begins, each with a block count for its checkpoints; counts after the first n are not looked at.
    ! Refused with 1, 2 (not 6,464 words: then nothing is written), 3 (fewer than n counts) or 15.
    function lemidrosy_start(words, n, counts) result(answer)
        integer(c_int16_t), contiguous, intent(inout) :: words(:)
        integer(c_int32_t), intent(in) :: n
        integer(c_int32_t), contiguous, intent(in) :: counts(:)
        type(lemidrosy_answer) :: answer

        answer = fields(c_start(words, length_of(words), int(n, c_size_t), counts, size(counts, kind=c_size_t)))
    end function

    ! A process takes a checkpoint; the value is its index. What is deleted goes to the list, which has room for 2 n n entries, as
    ! pairs of a process and an index. Refused with 2, 3, 4, 11 or 16.
    function lemidrosy_checkpoint(words, process, deleted) result(answer)
        integer(c_int16_t), contiguous, intent(inout) :: words(:)
        integer(c_int32_t), intent(in) :: process
        integer(c_int32_t), intent(inout) :: deleted(:)
        type(lemidrosy_answer) :: answer
        integer(c_int16_t) :: lent(lemidrosy_deletions_size)

        answer = fields(c_checkpoint(words, length_of(words), int(process, c_size_t), lent, room_of(deleted, size(lent))))
        call write_front(2 * answer%deletions, lent, deleted)
    end function

    ! A process sends a message to another; the value is the message's number. Refused with 2, 4, 5, 9 or 10.
    function lemidrosy_send(words, sender, receiver) result(answer)
        integer(c_int16_t), contiguous, intent(inout) :: words(:)
        integer(c_int32_t), intent(in) :: sender, receiver
        type(lemidrosy_answer) :: answer

        answer = fields(c_send(words, length_of(words), int(sender, c_size_t), int(receiver, c_size_t)))
    end function

    ! A message reaches its receiver, which takes in the vector that it carries; the value is the index of the checkpoint that it
    ! forces, if it forces one, and the set has the entries that rose. What is deleted goes to the list, as that of a checkpoint.
    ! Refused with 2, 3, 8, 11 or 16.
    function lemidrosy_deliver(words, message, deleted) result(answer)
        integer(c_int16_t), contiguous, intent(inout) :: words(:)
        integer(c_int32_t), intent(in) :: message
        integer(c_int32_t), intent(inout) :: deleted(:)
        type(lemidrosy_answer) :: answer
        integer(c_int16_t) :: lent(lemidrosy_deletions_size)

        answer = fields(c_deliver(words, length_of(words), message, lent, room_of(deleted, size(lent))))
        call write_front(2 * answer%deletions, lent, deleted)
    end function

    ! A message is lost. Refused with 2 or 8.
    function lemidrosy_lose(words, message) result(answer)
        integer(c_int16_t), contiguous, intent(inout) :: words(:)
        integer(c_int32_t), intent(in) :: message
        type(lemidrosy_answer) :: answer

        answer = fields(c_lose(words, length_of(words), message))
    end function

    ! The processes of a failed set go back to the line, and others with them where the line says so; the value is how many went
    ! back, the n indexes of the line go to the one list and what is deleted to the other, as that of a checkpoint. A set of 0 is
    ! a sweep: nobody goes back. Refused with 2, 3 or 7.
    function lemidrosy_recover(words, failed, deleted, line) result(answer)
        integer(c_int16_t), contiguous, intent(inout) :: words(:)
        integer(c_int32_t), intent(in) :: failed
        integer(c_int32_t), intent(inout) :: deleted(:), line(:)
        type(lemidrosy_answer) :: answer
        integer(c_int16_t) :: pairs(lemidrosy_deletions_size), lent(lemidrosy_max_processes)
        integer :: n

        ! asked before: a recovery of forged words may leave some that stand for no sound state
        n = processes(words)
        answer = fields(c_recover(words, length_of(words), failed, pairs, room_of(deleted, size(pairs)), lent, &
            room_of(line, size(lent))))
        if (answer%refused /= 0) return
        call write_front(2 * answer%deletions, pairs, deleted)
        call write_front(n, lent, line)
    end function

    ! The recorder: each call once more, with a buffer that is a trace and the place of its next byte, counted from 0, so that it
    ! says how many bytes the trace has. The start writes n as the first byte, and the place is then 1; another call that is
    ! accepted appends its record, four bytes. Refused as without the recorder, and with 21, after every other number, where the
    ! buffer has too few bytes left; then no byte changes, and neither does the place.
    function lemidrosy_record_start(words, n, counts, buffer, place) result(answer)
        integer(c_int16_t), contiguous, intent(inout) :: words(:)
        integer(c_int32_t), intent(in) :: n
        integer(c_int32_t), contiguous, intent(in) :: counts(:)
        integer(c_int8_t), contiguous, intent(inout) :: buffer(:)
        integer(c_int64_t), intent(inout) :: place
        type(lemidrosy_answer) :: answer

        answer = fields(c_record_start(words, length_of(words), int(n, c_size_t), counts, size(counts, kind=c_size_t), &
            buffer, size(buffer, kind=c_size_t), place, 1_c_size_t))
    end function

    function lemidrosy_record_checkpoint(words, process, deleted, buffer, place) result(answer)
        integer(c_int16_t), contiguous, intent(inout) :: words(:)
        integer(c_int32_t), intent(in) :: process
        integer(c_int32_t), intent(inout) :: deleted(:)
        integer(c_int8_t), contiguous, intent(inout) :: buffer(:)
        integer(c_int64_t), intent(inout) :: place
        type(lemidrosy_answer) :: answer
        integer(c_int16_t) :: lent(lemidrosy_deletions_size)

        answer = fields(c_record_checkpoint(words, length_of(words), int(process, c_size_t), lent, room_of(deleted, size(lent)), &
            buffer, size(buffer, kind=c_size_t), place, 1_c_size_t))
        call write_front(2 * answer%deletions, lent, deleted)
    end function

    function lemidrosy_record_send(words, sender, receiver, buffer, place) result(answer)
        integer(c_int16_t), contiguous, intent(inout) :: words(:)
        integer(c_int32_t), intent(in) :: sender, receiver
        integer(c_int8_t), contiguous, intent(inout) :: buffer(:)
        integer(c_int64_t), intent(inout) :: place
        type(lemidrosy_answer) :: answer

        answer = fields(c_record_send(words, length_of(words), int(sender, c_size_t), int(receiver, c_size_t), &
            buffer, size(buffer, kind=c_size_t), place, 1_c_size_t))
    end function

    function lemidrosy_record_deliver(words, message, deleted, buffer, place) result(answer)
        integer(c_int16_t), contiguous, intent(inout) :: words(:)
        integer(c_int32_t), intent(in) :: message
        integer(c_int32_t), intent(inout) :: deleted(:)
        integer(c_int8_t), contiguous, intent(inout) :: buffer(:)
        integer(c_int64_t), intent(inout) :: place
        type(lemidrosy_answer) :: answer
        integer(c_int16_t) :: lent(lemidrosy_deletions_size)

        answer = fields(c_record_deliver(words, length_of(words), message, lent, room_of(deleted, size(lent)), &
            buffer, size(buffer, kind=c_size_t), place, 1_c_size_t))
        call write_front(2 * answer%deletions, lent, deleted)
    end function

    function lemidrosy_record_lose(words, message, buffer, place) result(answer)
        integer(c_int16_t), contiguous, intent(inout) :: words(:)
        integer(c_int32_t), intent(in) :: message
        integer(c_int8_t), contiguous, intent(inout) :: buffer(:)
        integer(c_int64_t), intent(inout) :: place
        type(lemidrosy_answer) :: answer

        answer = fields(c_record_lose(words, length_of(words), message, buffer, size(buffer, kind=c_size_t), place, 1_c_size_t))
    end function

    function lemidrosy_record_recover(words, failed, deleted, line, buffer, place) result(answer)
        integer(c_int16_t), contiguous, intent(inout) :: words(:)
        integer(c_int32_t), intent(in) :: failed
        integer(c_int32_t), intent(inout) :: deleted(:), line(:)
        integer(c_int8_t), contiguous, intent(inout) :: buffer(:)
        integer(c_int64_t), intent(inout) :: place
        type(lemidrosy_answer) :: answer
        integer(c_int16_t) :: pairs(lemidrosy_deletions_size), lent(lemidrosy_max_processes)
        integer :: n

        n = processes(words)
        answer = fields(c_record_recover(words, length_of(words), failed, pairs, room_of(deleted, size(pairs)), lent, &
            room_of(line, size(lent)), buffer, size(buffer, kind=c_size_t), place, 1_c_size_t))
        if (answer%refused /= 0) return
        call write_front(2 * answer%deletions, pairs, deleted)
        call write_front(n, lent, line)
    end function

    ! The console for shared clusters: each call once more, and two more. First comes the caller: its role and the set of a job
    ! owner's processes, bits at n and above of which count for nothing. Refused as without the console, and with 25, before any
    ! other number, where the caller may not do this: lemidrosy.h says what each role may do. Then nothing changes, and a start
    ! leaves the words too.
    function lemidrosy_console_start(role, owned, words, n, counts) result(answer)
        integer(c_int32_t), intent(in) :: role, owned, n
        integer(c_int16_t), contiguous, intent(inout) :: words(:)
        integer(c_int32_t), contiguous, intent(in) :: counts(:)
        type(lemidrosy_answer) :: answer

        answer = fields(c_console_start(role, owned, words, length_of(words), int(n, c_size_t), counts, &
            size(counts, kind=c_size_t)))
    end function

    function lemidrosy_console_checkpoint(role, owned, words, process, deleted) result(answer)
        integer(c_int32_t), intent(in) :: role, owned, process
        integer(c_int16_t), contiguous, intent(inout) :: words(:)
        integer(c_int32_t), intent(inout) :: deleted(:)
        type(lemidrosy_answer) :: answer
        integer(c_int16_t) :: lent(lemidrosy_deletions_size)

        answer = fields(c_console_checkpoint(role, owned, words, length_of(words), int(process, c_size_t), lent, &
            room_of(deleted, size(lent))))
        call write_front(2 * answer%deletions, lent, deleted)
    end function

    function lemidrosy_console_send(role, owned, words, sender, receiver) result(answer)
        integer(c_int32_t), intent(in) :: role, owned, sender, receiver
        integer(c_int16_t), contiguous, intent(inout) :: words(:)
        type(lemidrosy_answer) :: answer

        answer = fields(c_console_send(role, owned, words, length_of(words), int(sender, c_size_t), int(receiver, c_size_t)))
    end function

    function lemidrosy_console_deliver(role, owned, words, message, deleted) result(answer)
        integer(c_int32_t), intent(in) :: role, owned, message
        integer(c_int16_t), contiguous, intent(inout) :: words(:)
        integer(c_int32_t), intent(inout) :: deleted(:)
        type(lemidrosy_answer) :: answer
        integer(c_int16_t) :: lent(lemidrosy_deletions_size)

        answer = fields(c_console_deliver(role, owned, words, length_of(words), message, lent, room_of(deleted, size(lent))))
        call write_front(2 * answer%deletions, lent, deleted)
    end function

    function lemidrosy_console_lose(role, owned, words, message) result(answer)
        integer(c_int32_t), intent(in) :: role, owned, message
        integer(c_int16_t), contiguous, intent(inout) :: words(:)
        type(lemidrosy_answer) :: answer

        answer = fields(c_console_lose(role, owned, words, length_of(words), message))
    end function

    ! The members of the caller's own processes go to their places in the list, and no other place of it changes.
    function lemidrosy_console_line(role, owned, words, failed, line) result(answer)
        integer(c_int32_t), intent(in) :: role, owned, failed
        integer(c_int16_t), contiguous, intent(in) :: words(:)
        integer(c_int32_t), intent(inout) :: line(:)
        type(lemidrosy_answer) :: answer
        integer(c_int16_t), dimension(lemidrosy_max_processes) :: one, other
        integer :: p

        ! a place that is left as it was lent, once with 0 and once with 1, is not the caller's
        one = 0
        other = 1
        answer = fields(c_console_line(role, owned, words, length_of(words), failed, one, room_of(line, size(one))))
        answer = fields(c_console_line(role, owned, words, length_of(words), failed, other, room_of(line, size(other))))
        if (answer%refused /= 0) return
        do p = 1, processes(words)
            if (one(p) == other(p)) line(p) = iand(int(one(p), c_int32_t), 65535)
        end do
    end function

    function lemidrosy_console_recover(role, owned, words, failed, deleted, line) result(answer)
        integer(c_int32_t), intent(in) :: role, owned, failed
        integer(c_int16_t), contiguous, intent(inout) :: words(:)
        integer(c_int32_t), intent(inout) :: deleted(:), line(:)
        type(lemidrosy_answer) :: answer
        integer(c_int16_t) :: pairs(lemidrosy_deletions_size), lent(lemidrosy_max_processes)
        integer :: n

        n = processes(words)
        answer = fields(c_console_recover(role, owned, words, length_of(words), failed, pairs, room_of(deleted, size(pairs)), &
            lent, room_of(line, size(lent))))
        if (answer%refused /= 0) return
        call write_front(2 * answer%deletions, pairs, deleted)
        call write_front(n, lent, line)
    end function

    function lemidrosy_console_earliest(role, owned, words, named, line) result(answer)
        integer(c_int32_t), intent(in) :: role, owned
        integer(c_int16_t), contiguous, intent(in) :: words(:)
        integer(c_int32_t), contiguous, intent(in) :: named(:)
        integer(c_int32_t), intent(inout) :: line(:)
        type(lemidrosy_answer) :: answer
        integer(c_int16_t) :: lent(lemidrosy_max_processes)

        answer = fields(c_console_earliest(role, owned, words, length_of(words), named, size(named, kind=c_size_t), lent, &
            room_of(line, size(lent))))
        if (answer%refused == 0) call write_front(processes(words), lent, line)
    end function

    ! The checkpoints that the caller's own processes keep, to an operator those of all, as pairs of a process and an index; the
    ! value is how many they are. The list has room for 2 n n entries. Refused with 2, 3 or 25.
    function lemidrosy_console_list(role, owned, words, listed) result(answer)
        integer(c_int32_t), intent(in) :: role, owned
        integer(c_int16_t), contiguous, intent(in) :: words(:)
        integer(c_int32_t), intent(inout) :: listed(:)
        type(lemidrosy_answer) :: answer
        integer(c_int16_t) :: lent(lemidrosy_deletions_size)

        answer = fields(c_console_list(role, owned, words, length_of(words), lent, room_of(listed, size(lent))))
        call write_front(2 * answer%value, lent, listed)
    end function

    ! How many checkpoints each process keeps: n numbers go to the list. Refused with 2, 3 or 25.
    function lemidrosy_console_counts(role, owned, words, counts) result(answer)
        integer(c_int32_t), intent(in) :: role, owned
        integer(c_int16_t), contiguous, intent(in) :: words(:)
        integer(c_int32_t), intent(inout) :: counts(:)
        type(lemidrosy_answer) :: answer
        integer(c_int16_t) :: lent(lemidrosy_max_processes)

        answer = fields(c_console_counts(role, owned, words, length_of(words), lent, room_of(counts, size(lent))))
        if (answer%refused == 0) call write_front(processes(words), lent, counts)
    end function

    ! The messages under way that a recovery of this failed set would lose, as lemidrosy_messages has them: to be asked before the
    ! recovery. Refused with 2, 3 or 7.
    function lemidrosy_lost(words, failed, messages) result(answer)
        integer(c_int16_t), contiguous, intent(in) :: words(:)
        integer(c_int32_t), intent(in) :: failed
        integer(c_int32_t), contiguous, intent(inout) :: messages(:)
        type(lemidrosy_answer) :: answer

        answer = fields(c_lost(words, length_of(words), failed, messages, size(messages, kind=c_size_t)))
    end function

    ! The line for a failed set: the n indexes of the line go to the list. The index of a process that stays live is its own
    ! entry. Refused with 2, 3 or 7.
    function lemidrosy_line(words, failed, line) result(answer)
        integer(c_int16_t), contiguous, intent(in) :: words(:)
        integer(c_int32_t), intent(in) :: failed
        integer(c_int32_t), intent(inout) :: line(:)
        type(lemidrosy_answer) :: answer
        integer(c_int16_t) :: lent(lemidrosy_max_processes)

        answer = fields(c_line(words, length_of(words), failed, lent, room_of(line, size(lent))))
        if (answer%refused == 0) call write_front(processes(words), lent, line)
    end function

    ! The earliest consistent line through the named checkpoints, pairs of a process and an index: it may name deleted
    ! checkpoints, so it is to be shown, not restarted from. Refused with 2, 3, 4, 18, 19 or 20.
    function lemidrosy_earliest(words, named, line) result(answer)
        integer(c_int16_t), contiguous, intent(in) :: words(:)
        integer(c_int32_t), contiguous, intent(in) :: named(:)
        integer(c_int32_t), intent(inout) :: line(:)
        type(lemidrosy_answer) :: answer
        integer(c_int16_t) :: lent(lemidrosy_max_processes)

        answer = fields(c_earliest(words, length_of(words), named, size(named, kind=c_size_t), lent, room_of(line, size(lent))))
        if (answer%refused == 0) call write_front(processes(words), lent, line)
    end function

    ! The readers. Each is refused with 2, and with 3 if the list is too short for what it may have to hold; those of a process
    ! with 4.

    ! n, the last message number used, how many messages are under way, the blocks written, the blocks deleted.
    function lemidrosy_numbers(words, numbers) result(answer)
        integer(c_int16_t), contiguous, intent(in) :: words(:)
        integer(c_int64_t), contiguous, intent(inout) :: numbers(:)
        type(lemidrosy_answer) :: answer

        answer = fields(c_numbers(words, length_of(words), numbers, size(numbers, kind=c_size_t)))
    end function

    ! The n entries of a process's vector.
    function lemidrosy_vector(words, process, vector) result(answer)
        integer(c_int16_t), contiguous, intent(in) :: words(:)
        integer(c_int32_t), intent(in) :: process
        integer(c_int32_t), intent(inout) :: vector(:)
        type(lemidrosy_answer) :: answer
        integer(c_int16_t) :: lent(lemidrosy_max_processes)

        answer = fields(c_vector(words, length_of(words), int(process, c_size_t), lent, room_of(vector, size(lent))))
        if (answer%refused == 0) call write_front(processes(words), lent, vector)
    end function

    ! The n pins of a process: one more than the index of the checkpoint that the pin names, 0 if it names none.
    function lemidrosy_pins(words, process, pins) result(answer)
        integer(c_int16_t), contiguous, intent(in) :: words(:)
        integer(c_int32_t), intent(in) :: process
        integer(c_int32_t), intent(inout) :: pins(:)
        type(lemidrosy_answer) :: answer
        integer(c_int16_t) :: lent(lemidrosy_max_processes)

        answer = fields(c_pins(words, length_of(words), int(process, c_size_t), lent, room_of(pins, size(lent))))
        if (answer%refused == 0) call write_front(processes(words), lent, pins)
    end function

    ! The checkpoints that a process keeps, ascending, three numbers each: index, cause (0 initial, 1 basic, 2 forced), blocks.
    ! The value is how many they are; the list has room for 3 n numbers.
    function lemidrosy_kept(words, process, kept) result(answer)
        integer(c_int16_t), contiguous, intent(in) :: words(:)
        integer(c_int32_t), intent(in) :: process
        integer(c_int32_t), contiguous, intent(inout) :: kept(:)
        type(lemidrosy_answer) :: answer

        answer = fields(c_kept(words, length_of(words), int(process, c_size_t), kept, size(kept, kind=c_size_t)))
    end function

    ! The messages under way, ascending, three numbers each: number, sender, receiver. The value is how many they are; the list
    ! has room for lemidrosy_messages_size numbers.
    function lemidrosy_messages(words, messages) result(answer)
        integer(c_int16_t), contiguous, intent(in) :: words(:)
        integer(c_int32_t), contiguous, intent(inout) :: messages(:)
        type(lemidrosy_answer) :: answer

        answer = fields(c_messages(words, length_of(words), messages, size(messages, kind=c_size_t)))
    end function

    ! The n entries of the vector that a message carries. Refused with 8 too.
    function lemidrosy_carried(words, message, vector) result(answer)
        integer(c_int16_t), contiguous, intent(in) :: words(:)
        integer(c_int32_t), intent(in) :: message
        integer(c_int32_t), intent(inout) :: vector(:)
        type(lemidrosy_answer) :: answer
        integer(c_int16_t) :: lent(lemidrosy_max_processes)

        answer = fields(c_carried(words, length_of(words), message, lent, room_of(vector, size(lent))))
        if (answer%refused == 0) call write_front(processes(words), lent, vector)
    end function

    ! Records of a trace, four bytes each and without its first byte, as calls on the words; done says how many were before them.
    ! Their lines go to the text, and to the list how many records were taken, how many letters were written, and 1 if the replay
    ! goes on. It stops after a refusal, unless all are asked for, after record 1,000,000,000, and where the longest line, 3,102
    ! letters, might not fit any more. Refused with 3 if the list has fewer than three entries.
    function lemidrosy_replay(words, all, done, records, text, progress) result(answer)
        integer(c_int16_t), contiguous, intent(inout) :: words(:)
        logical, intent(in) :: all
        integer(c_int64_t), intent(in) :: done
        integer(c_int8_t), contiguous, intent(in) :: records(:)
        character(len=*), intent(inout) :: text
        integer(c_int64_t), contiguous, intent(inout) :: progress(:)
        type(lemidrosy_answer) :: answer

        answer = fields(c_replay(words, length_of(words), logical(all, c_bool), done, records, size(records, kind=c_size_t), text, &
            len(text, kind=c_size_t), progress, size(progress, kind=c_size_t)))
    end function

    ! The state as bytes that are the same on every machine: they go to the list, which has room for lemidrosy_saved_size; the
    ! value is how many they are. Refused with 2 or 3.
    function lemidrosy_save(words, bytes) result(answer)
        integer(c_int16_t), contiguous, intent(in) :: words(:)
        integer(c_int8_t), contiguous, intent(inout) :: bytes(:)
        type(lemidrosy_answer) :: answer

        answer = fields(c_save(words, length_of(words), bytes, size(bytes, kind=c_size_t)))
    end function

    ! The words that were saved. Refused with 2: bytes that are no saved sound state, or not lemidrosy_words words; then no word
    ! is written.
    function lemidrosy_load(bytes, words) result(answer)
        integer(c_int8_t), contiguous, intent(in) :: bytes(:)
        integer(c_int16_t), contiguous, intent(inout) :: words(:)
        type(lemidrosy_answer) :: answer

        answer = fields(c_load(bytes, size(bytes, kind=c_size_t), words, length_of(words)))
    end function

    ! Stores the state in a file: 0, the number of a refusal, or below 0 an error of the system (-errno). A crash, a full disk or
    ! an error in the middle leaves the old file. Spaces at the end of the path do not count.
    function lemidrosy_store_file(path, words) result(status)
        character(len=*), intent(in) :: path
        integer(c_int16_t), intent(in) :: words(lemidrosy_words)
        integer(c_int32_t) :: status

        status = int(c_store_file(trim(path) // c_null_char, words), c_int32_t)
    end function

    ! The words of the state of a file: 0, the number of a refusal, or below 0 an error of the system (-errno); then no word is
    ! written.
    function lemidrosy_load_file(path, words) result(status)
        character(len=*), intent(in) :: path
        integer(c_int16_t), intent(inout) :: words(lemidrosy_words)
        integer(c_int32_t) :: status

        status = int(c_load_file(trim(path) // c_null_char, words), c_int32_t)
    end function

    ! The verdict on a trace of another run-time: its bytes. It takes 0.4 MB of stack.
    function lemidrosy_judge(trace) result(verdict)
        integer(c_int8_t), contiguous, intent(in) :: trace(:)
        type(lemidrosy_verdict) :: verdict
        integer(c_int64_t) :: number

        number = c_judge(trace, size(trace, kind=c_size_t))
        verdict%refused = field(number, 0, 8)
        verdict%breaks = btest(number, 8)
        verdict%near_process = field(number, 16, 8)
        verdict%near_index = field(number, 24, 16)
        verdict%far_process = field(number, 40, 8)
        verdict%far_index = field(number, 48, 16)
    end function

    ! The trace of two halves of a run, of which each recorded its own processes: bit p of the set says that process p belongs to
    ! the first. The value is how many bytes it has; the list has room for the bytes of both. Refused with 1, 3, 4, 5, 7, 12, 13,
    ! 14, 17, 23 or 24.
    function lemidrosy_merge(first, second, set, trace) result(answer)
        integer(c_int8_t), contiguous, intent(in) :: first(:), second(:)
        integer(c_int32_t), intent(in) :: set
        integer(c_int8_t), contiguous, intent(inout) :: trace(:)
        type(lemidrosy_answer) :: answer

        answer = fields(c_merge(first, size(first, kind=c_size_t), second, size(second, kind=c_size_t), set, trace, &
            size(trace, kind=c_size_t)))
    end function

    ! The figures of a simulation: deliveries, forced checkpoints, the most kept at any process, forced checkpoints for each
    ! thousand deliveries and the remainder of that division. Refused with 3 or 22.
    function lemidrosy_simulate(n, spacing, steps, seed, figures) result(answer)
        integer(c_int32_t), intent(in) :: n, spacing, steps, seed
        integer(c_int64_t), contiguous, intent(inout) :: figures(:)
        type(lemidrosy_answer) :: answer

        answer = fields(c_simulate(int(n, c_size_t), spacing, steps, seed, figures, size(figures, kind=c_size_t)))
    end function

    ! The fields of an answer.
    pure function fields(number) result(answer)
        integer(c_int64_t), intent(in) :: number
        type(lemidrosy_answer) :: answer

        answer%refused = field(number, 0, 8)
        answer%deletions = field(number, 8, 15)
        answer%has_value = btest(number, 23)
        answer%value = field(number, 24, 24)
        answer%rose = field(number, 48, 16)
    end function

    pure function field(number, at, bits) result(part)
        integer(c_int64_t), intent(in) :: number
        integer, intent(in) :: at, bits
        integer(c_int32_t) :: part

        part = int(ibits(number, at, bits), c_int32_t)
    end function

    pure function length_of(words) result(length)
        integer(c_int16_t), intent(in) :: words(:)
        integer(c_size_t) :: length

        length = size(words, kind=c_size_t)
    end function

    ! How many entries are lent for a list: as many as it has, and no more than are ever asked for.
    pure function room_of(list, most) result(room)
        integer(c_int32_t), intent(in) :: list(:)
        integer, intent(in) :: most
        integer(c_size_t) :: room

        room = min(size(list, kind=c_size_t), int(most, c_size_t))
    end function

    ! That many entries of 16 bits without a sign go to the front of a list.
    pure subroutine write_front(many, from, list)
        integer, intent(in) :: many
        integer(c_int16_t), intent(in) :: from(:)
        integer(c_int32_t), intent(inout) :: list(:)

        list(:many) = iand(int(from(:many), c_int32_t), 65535)
    end subroutine

    ! How many processes the run of sound words has.
    function processes(words) result(n)
        integer(c_int16_t), contiguous, intent(in) :: words(:)
        integer :: n
        integer(c_int64_t) :: numbers(lemidrosy_numbers_size), answer

        numbers = 0
        answer = c_numbers(words, length_of(words), numbers, size(numbers, kind=c_size_t))
        n = int(numbers(1))
    end function
end module
