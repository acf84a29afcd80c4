! Makes the calls on standard input through the module for Fortran and prints the answers: README.md has the lines.
module lines
    use, intrinsic :: iso_c_binding, only: c_int8_t, c_int16_t, c_int32_t, c_int64_t
    use, intrinsic :: iso_fortran_env, only: input_unit, iostat_end, iostat_eor
    implicit none

    ! The line that is read and how far it was taken apart; the answer that is being written.
    character(len=:), allocatable :: line, answer
    integer :: line_length, at, answer_length

contains

    ! The next line; false at the end of the input.
    function next_line() result(there)
        logical :: there
        character(len=4096) :: part
        integer :: status, many

        line_length = 0
        at = 1
        do
            read (input_unit, '(a)', advance='no', size=many, iostat=status) part
            if (status == iostat_end) exit
            call append(line, line_length, part(:many))
            if (status == iostat_eor) exit
            if (status /= 0) error stop "the input cannot be read"
        end do
        there = status /= iostat_end
    end function

    subroutine append(text, length, more)
        character(len=:), allocatable, intent(inout) :: text
        integer, intent(inout) :: length
        character(len=*), intent(in) :: more
        character(len=:), allocatable :: wider

        if (.not. allocated(text)) allocate (character(len=65536) :: text)
        if (length + len(more) > len(text)) then
            allocate (character(len=2 * (length + len(more))) :: wider)
            wider(:length) = text(:length)
            call move_alloc(wider, text)
        end if
        text(length + 1:length + len(more)) = more
        length = length + len(more)
    end subroutine

    ! Whether the line has another word.
    function has_word() result(has)
        logical :: has

        has = at <= line_length
    end function

    ! Where the next word of the line ends, and where the one after it begins.
    subroutine take_word(first, last)
        integer, intent(out) :: first, last

        first = at
        last = first - 1
        do while (last < line_length)
            if (line(last + 1:last + 1) == ' ') exit
            last = last + 1
        end do
        at = last + 2
    end subroutine

    function next_word() result(word)
        character(len=:), allocatable :: word
        integer :: first, last

        call take_word(first, last)
        word = line(first:last)
    end function

    ! The next word as a number, or one above those of 32 bits if it is greater.
    function next_number() result(number)
        integer(c_int64_t) :: number
        integer :: first, last

        call take_word(first, last)
        number = number_of(line(first:last))
    end function

    ! The next word as a number of 63 bits.
    function next_long() result(number)
        integer(c_int64_t) :: number
        integer :: first, last

        call take_word(first, last)
        read (line(first:last), *) number
    end function

    pure function number_of(digits) result(number)
        character(len=*), intent(in) :: digits
        integer(c_int64_t) :: number
        integer :: k

        number = 0
        do k = 1, len(digits)
            number = min(10 * number + iachar(digits(k:k)) - iachar('0'), 4294967296_c_int64_t)
        end do
    end function

    ! The next word, a pair P:K, as two numbers.
    subroutine next_pair(left, right)
        integer(c_int64_t), intent(out) :: left, right
        integer :: first, last, between

        call take_word(first, last)
        between = first - 1 + index(line(first:last), ':')
        left = number_of(line(first:between - 1))
        right = number_of(line(between + 1:last))
    end subroutine

    ! The bits of a number of 32 bits without a sign.
    pure function bits(number) result(signed)
        integer(c_int64_t), intent(in) :: number
        integer(c_int32_t) :: signed

        signed = int(merge(number - 4294967296_c_int64_t, number, number > 2147483647_c_int64_t), c_int32_t)
    end function

    ! The next word as a number of 32 bits without a sign.
    function next_bits() result(number)
        integer(c_int32_t) :: number

        number = bits(next_number())
    end function

    ! The next word as bytes.
    function next_bytes() result(bytes)
        integer(c_int8_t), allocatable :: bytes(:)
        integer :: first, last, k, byte

        call take_word(first, last)
        if (line(first:last) == '-') last = first - 1
        allocate (bytes((last - first + 1) / 2))
        do k = 1, size(bytes)
            byte = 16 * digit(line(first + 2 * k - 2:first + 2 * k - 2)) + digit(line(first + 2 * k - 1:first + 2 * k - 1))
            bytes(k) = int(merge(byte - 256, byte, byte > 127), c_int8_t)
        end do
    end function

    pure function digit(letter) result(value)
        character, intent(in) :: letter
        integer :: value

        value = index('0123456789abcdef', letter) - 1
    end function

    ! A number, or a hyphen, after a space.
    subroutine say(number)
        integer(c_int64_t), intent(in) :: number

        call append(answer, answer_length, ' ' // digits_of(number))
    end subroutine

    subroutine say_index(index_plus_one)
        integer(c_int32_t), intent(in) :: index_plus_one

        if (index_plus_one == 0) then
            call append(answer, answer_length, ' -')
        else
            call say(int(index_plus_one - 1, c_int64_t))
        end if
    end subroutine

    subroutine say_all(numbers)
        integer(c_int32_t), intent(in) :: numbers(:)
        integer :: k

        do k = 1, size(numbers)
            call say(int(numbers(k), c_int64_t))
        end do
    end subroutine

    ! Numbers in groups of that many.
    subroutine say_groups(numbers, many)
        integer(c_int32_t), intent(in) :: numbers(:)
        integer, intent(in) :: many
        integer :: k

        do k = 1, size(numbers)
            call append(answer, answer_length, merge(' ', ':', mod(k - 1, many) == 0) // digits_of(int(numbers(k), c_int64_t)))
        end do
    end subroutine

    ! The letters of a text as bytes.
    subroutine say_text(text)
        character(len=*), intent(in) :: text
        integer :: k

        call say_bytes([(int(iachar(text(k:k)), c_int8_t), k = 1, len(text))])
    end subroutine

    subroutine say_bytes(bytes)
        integer(c_int8_t), intent(in) :: bytes(:)
        character(len=2) :: two
        integer :: k

        call append(answer, answer_length, ' ')
        if (size(bytes) == 0) call append(answer, answer_length, '-')
        do k = 1, size(bytes)
            write (two, '(z2.2)') iand(int(bytes(k)), 255)
            call append(answer, answer_length, small(two(1:1)) // small(two(2:2)))
        end do
    end subroutine

    ! A digit in a small letter.
    pure function small(letter) result(same)
        character, intent(in) :: letter
        character :: same

        same = letter
        if (letter >= 'A') same = achar(iachar(letter) + 32)
    end function

    function digits_of(number) result(digits)
        integer(c_int64_t), intent(in) :: number
        character(len=:), allocatable :: digits
        character(len=20) :: room

        write (room, '(i0)') number
        digits = trim(room)
    end function
end module

program driver
    use lemidrosy
    use lines
    implicit none
    integer(c_int16_t), allocatable :: words(:)

    ! What the recorder has: a state of its own, a buffer, and the place of its next byte.
    integer(c_int16_t) :: tape(lemidrosy_words)
    integer(c_int8_t) :: buffer(65536)
    integer(c_int64_t) :: place

    allocate (words(0))
    tape = 0
    place = 0
    do while (next_line())
        answer_length = 0
        call append(answer, answer_length, '0')
        call make(next_word())
        print '(a)', answer(:answer_length)
    end do

contains

    subroutine make(call_name)
        character(len=*), intent(in) :: call_name

        select case (call_name)
        case ('start')
            call start()
        case ('checkpoint', 'vector', 'pins', 'kept')
            call of_process(call_name)
        case ('send')
            call send()
        case ('deliver', 'lose', 'carried')
            call of_message(call_name, next_bits())
        case ('line', 'recover', 'lost')
            call of_set(call_name, next_bits())
        case ('earliest')
            call earliest()
        case ('is_sound')
            call say(merge(1_c_int64_t, 0_c_int64_t, lemidrosy_is_sound(words)))
        case ('numbers')
            call numbers()
        case ('messages')
            call messages()
        case ('words')
            call spread()
        case ('dump', 'take')
            call stored(call_name, next_word())
        case ('replay')
            call replay()
        case ('save')
            call save(next_word())
        case ('load')
            call load(next_bytes())
        case ('store_file', 'load_file')
            call in_file(call_name, next_word())
        case ('judge')
            call judge(next_bytes())
        case ('merge')
            call merge_halves()
        case ('simulate')
            call simulate()
        case default
            if (index(call_name, 'record_') == 1) then
                call recorder(call_name(8:))
            else
                if (index(call_name, 'console_') /= 1) error stop 'no such call'
                call console(call_name(9:))
            end if
        end select
    end subroutine

    ! A call through the recorder. The module has no questions of its own for it: they are asked of its state.
    subroutine recorder(call_name)
        character(len=*), intent(in) :: call_name
        integer(c_int32_t) :: row(lemidrosy_max_processes), deleted(lemidrosy_deletions_size)
        type(lemidrosy_answer) :: got

        select case (call_name)
        case ('start', 'earliest')
            call recorder_numbers(call_name)
        case ('checkpoint', 'send')
            call recorder_process(call_name, next_number())
        case ('deliver')
            got = lemidrosy_record_deliver(tape, next_bits(), deleted, buffer, place)
            if (.not. accepted(got%refused)) return
            call say_index(merge(got%value + 1, 0, got%has_value))
            call say(int(got%rose, c_int64_t))
            call say_groups(deleted(:2 * got%deletions), 2)
        case ('lose')
            got = lemidrosy_record_lose(tape, next_bits(), buffer, place)
            if (.not. accepted(got%refused)) return
        case ('line')
            got = lemidrosy_line(tape, next_bits(), row)
            if (accepted(got%refused)) call say_all(row(:buffer(1)))
        case ('recover')
            got = lemidrosy_record_recover(tape, next_bits(), deleted, row, buffer, place)
            if (.not. accepted(got%refused)) return
            call say(int(got%value, c_int64_t))
            call say_all(row(:buffer(1)))
            call say_groups(deleted(:2 * got%deletions), 2)
        case ('trace')
            call say_bytes(buffer(:place))
        case default
            error stop 'no such call of the recorder'
        end select
    end subroutine

    ! A start, and the earliest line. A refused start leaves what the recorder has.
    subroutine recorder_numbers(call_name)
        character(len=*), intent(in) :: call_name
        integer(c_int16_t) :: fresh(lemidrosy_words)
        integer(c_int32_t) :: numbers(256), row(lemidrosy_max_processes)
        integer(c_int64_t) :: process, checkpoint
        type(lemidrosy_answer) :: got
        integer :: many

        many = 0
        if (call_name == 'start') then
            do while (has_word())
                many = many + 1
                numbers(many) = next_bits()
            end do
            fresh = 0
            got = lemidrosy_record_start(fresh, many, numbers(:many), buffer, place)
            if (accepted(got%refused)) tape = fresh
        else
            do while (has_word())
                call next_pair(process, checkpoint)
                numbers(many + 1) = bits(process)
                numbers(many + 2) = bits(checkpoint)
                many = many + 2
            end do
            got = lemidrosy_earliest(tape, numbers(:many), row)
            if (accepted(got%refused)) call say_all(row(:buffer(1)))
        end if
    end subroutine

    subroutine recorder_process(call_name, process)
        character(len=*), intent(in) :: call_name
        integer(c_int64_t), intent(in) :: process
        integer(c_int32_t) :: deleted(lemidrosy_deletions_size)
        integer(c_int64_t) :: receiver
        type(lemidrosy_answer) :: got

        receiver = 0
        if (call_name == 'send') receiver = next_number()
        if (.not. can_say(max(process, receiver))) return
        if (call_name == 'send') then
            got = lemidrosy_record_send(tape, int(process, c_int32_t), int(receiver, c_int32_t), buffer, place)
            if (accepted(got%refused)) call say(int(got%value, c_int64_t))
        else
            got = lemidrosy_record_checkpoint(tape, int(process, c_int32_t), deleted, buffer, place)
            if (.not. accepted(got%refused)) return
            call say(int(got%value, c_int64_t))
            call say_groups(deleted(:2 * got%deletions), 2)
        end if
    end subroutine

    ! A call through the console: the caller comes first.
    subroutine console(call_name)
        character(len=*), intent(in) :: call_name
        integer(c_int32_t) :: role, owned, deleted(lemidrosy_deletions_size), row(lemidrosy_max_processes)
        type(lemidrosy_answer) :: got

        role = next_bits()
        owned = next_bits()
        select case (call_name)
        case ('start', 'earliest')
            call console_numbers(call_name, role, owned)
        case ('checkpoint', 'send')
            call console_process(call_name, role, owned, next_number())
        case ('deliver')
            got = lemidrosy_console_deliver(role, owned, words, next_bits(), deleted)
            if (.not. accepted(got%refused)) return
            call say_index(merge(got%value + 1, 0, got%has_value))
            call say(int(got%rose, c_int64_t))
            call say_groups(deleted(:2 * got%deletions), 2)
        case ('lose')
            got = lemidrosy_console_lose(role, owned, words, next_bits())
            if (.not. accepted(got%refused)) return
        case ('line')
            call console_line(role, owned, next_bits())
        case ('recover')
            call console_recover(role, owned, next_bits())
        case ('list')
            got = lemidrosy_console_list(role, owned, words, deleted)
            if (accepted(got%refused)) call say_groups(deleted(:2 * got%value), 2)
        case ('counts')
            got = lemidrosy_console_counts(role, owned, words, row)
            if (accepted(got%refused)) call say_all(row(:count_of()))
        case default
            error stop 'no such call of the console'
        end select
    end subroutine

    ! A start, and the earliest line.
    subroutine console_numbers(call_name, role, owned)
        character(len=*), intent(in) :: call_name
        integer(c_int32_t), intent(in) :: role, owned
        integer(c_int16_t), allocatable :: fresh(:)
        integer(c_int32_t) :: numbers(256), row(lemidrosy_max_processes)
        integer(c_int64_t) :: process, checkpoint
        type(lemidrosy_answer) :: got
        integer :: many

        many = 0
        if (call_name == 'start') then
            do while (has_word())
                many = many + 1
                numbers(many) = next_bits()
            end do
            allocate (fresh(lemidrosy_words))
            fresh = 0
            got = lemidrosy_console_start(role, owned, fresh, many, numbers(:many))
            if (accepted(got%refused)) call move_alloc(fresh, words)
        else
            do while (has_word())
                call next_pair(process, checkpoint)
                numbers(many + 1) = bits(process)
                numbers(many + 2) = bits(checkpoint)
                many = many + 2
            end do
            got = lemidrosy_console_earliest(role, owned, words, numbers(:many), row)
            if (accepted(got%refused)) call say_all(row(:count_of()))
        end if
    end subroutine

    subroutine console_process(call_name, role, owned, process)
        character(len=*), intent(in) :: call_name
        integer(c_int32_t), intent(in) :: role, owned
        integer(c_int64_t), intent(in) :: process
        integer(c_int32_t) :: deleted(lemidrosy_deletions_size)
        integer(c_int64_t) :: receiver
        type(lemidrosy_answer) :: got

        receiver = 0
        if (call_name == 'send') receiver = next_number()
        if (.not. can_say(max(process, receiver))) return
        if (call_name == 'send') then
            got = lemidrosy_console_send(role, owned, words, int(process, c_int32_t), int(receiver, c_int32_t))
            if (accepted(got%refused)) call say(int(got%value, c_int64_t))
        else
            got = lemidrosy_console_checkpoint(role, owned, words, int(process, c_int32_t), deleted)
            if (.not. accepted(got%refused)) return
            call say(int(got%value, c_int64_t))
            call say_groups(deleted(:2 * got%deletions), 2)
        end if
    end subroutine

    subroutine console_line(role, owned, failed)
        integer(c_int32_t), intent(in) :: role, owned, failed
        integer(c_int32_t) :: row(lemidrosy_max_processes)
        type(lemidrosy_answer) :: got
        integer :: p

        ! no index is below 0
        row = -1
        got = lemidrosy_console_line(role, owned, words, failed, row)
        if (.not. accepted(got%refused)) return
        do p = 1, count_of()
            call say_index(row(p) + 1)
        end do
    end subroutine

    subroutine console_recover(role, owned, failed)
        integer(c_int32_t), intent(in) :: role, owned, failed
        integer(c_int32_t) :: row(lemidrosy_max_processes), deleted(lemidrosy_deletions_size)
        type(lemidrosy_answer) :: got
        integer :: n

        n = 0
        if (lemidrosy_is_sound(words)) n = count_of()
        got = lemidrosy_console_recover(role, owned, words, failed, deleted, row)
        if (.not. accepted(got%refused)) return
        call say(int(got%value, c_int64_t))
        call say_all(row(:n))
        call say_groups(deleted(:2 * got%deletions), 2)
    end subroutine

    ! The answer is the number of the refusal, if the call was refused.
    function accepted(refused) result(is)
        integer(c_int32_t), intent(in) :: refused
        logical :: is

        is = refused == 0
        if (.not. is) then
            answer_length = 0
            call append(answer, answer_length, digits_of(int(refused, c_int64_t)))
        end if
    end function

    ! A process as the module takes it: any number of 31 bits. Others cannot be said, and the answer is a hyphen.
    function can_say(process) result(can)
        integer(c_int64_t), intent(in) :: process
        logical :: can

        can = process <= 2147483647_c_int64_t
        if (.not. can) then
            answer_length = 0
            call append(answer, answer_length, '-')
        end if
    end function

    subroutine start()
        integer(c_int16_t), allocatable :: fresh(:)
        integer(c_int32_t) :: counts(256)
        type(lemidrosy_answer) :: got
        integer :: n

        n = 0
        do while (has_word())
            n = n + 1
            counts(n) = next_bits()
        end do
        allocate (fresh(lemidrosy_words))
        got = lemidrosy_start(fresh, n, counts(:n))
        if (accepted(got%refused)) call move_alloc(fresh, words)
    end subroutine

    subroutine of_process(call_name)
        character(len=*), intent(in) :: call_name
        integer(c_int64_t) :: asked
        integer(c_int32_t) :: process, deleted(lemidrosy_deletions_size), row(lemidrosy_max_processes), kept(lemidrosy_kept_size)
        type(lemidrosy_answer) :: got
        integer :: k

        asked = next_number()
        if (.not. can_say(asked)) return
        process = int(asked, c_int32_t)
        select case (call_name)
        case ('checkpoint')
            got = lemidrosy_checkpoint(words, process, deleted)
            if (.not. accepted(got%refused)) return
            call say(int(got%value, c_int64_t))
            call say_groups(deleted(:2 * got%deletions), 2)
        case ('vector')
            got = lemidrosy_vector(words, process, row)
            if (accepted(got%refused)) call say_all(row(:count_of()))
        case ('pins')
            got = lemidrosy_pins(words, process, row)
            if (.not. accepted(got%refused)) return
            do k = 1, count_of()
                call say_index(row(k))
            end do
        case ('kept')
            got = lemidrosy_kept(words, process, kept)
            if (accepted(got%refused)) call say_groups(kept(:3 * got%value), 3)
        end select
    end subroutine

    ! How many processes the run has.
    function count_of() result(n)
        integer :: n
        integer(c_int64_t) :: read(lemidrosy_numbers_size)
        type(lemidrosy_answer) :: got

        got = lemidrosy_numbers(words, read)
        if (got%refused /= 0) error stop 'no numbers of a sound state'
        n = int(read(1))
    end function

    subroutine send()
        integer(c_int64_t) :: sender, receiver
        type(lemidrosy_answer) :: got

        sender = next_number()
        receiver = next_number()
        if (.not. can_say(max(sender, receiver))) return
        got = lemidrosy_send(words, int(sender, c_int32_t), int(receiver, c_int32_t))
        if (accepted(got%refused)) call say(int(got%value, c_int64_t))
    end subroutine

    subroutine of_message(call_name, message)
        character(len=*), intent(in) :: call_name
        integer(c_int32_t), intent(in) :: message
        integer(c_int32_t) :: deleted(lemidrosy_deletions_size), row(lemidrosy_max_processes)
        type(lemidrosy_answer) :: got

        select case (call_name)
        case ('deliver')
            got = lemidrosy_deliver(words, message, deleted)
            if (.not. accepted(got%refused)) return
            call say_index(merge(got%value + 1, 0, got%has_value))
            call say(int(got%rose, c_int64_t))
            call say_groups(deleted(:2 * got%deletions), 2)
        case ('lose')
            got = lemidrosy_lose(words, message)
            if (.not. accepted(got%refused)) return
        case ('carried')
            got = lemidrosy_carried(words, message, row)
            if (accepted(got%refused)) call say_all(row(:count_of()))
        end select
    end subroutine

    subroutine of_set(call_name, failed)
        character(len=*), intent(in) :: call_name
        integer(c_int32_t), intent(in) :: failed
        integer(c_int32_t) :: row(lemidrosy_max_processes), deleted(lemidrosy_deletions_size), list(lemidrosy_messages_size)
        type(lemidrosy_answer) :: got
        integer :: n

        select case (call_name)
        case ('line')
            got = lemidrosy_line(words, failed, row)
            if (accepted(got%refused)) call say_all(row(:count_of()))
        case ('recover')
            n = 0
            if (lemidrosy_is_sound(words)) n = count_of()
            got = lemidrosy_recover(words, failed, deleted, row)
            if (.not. accepted(got%refused)) return
            call say(int(got%value, c_int64_t))
            call say_all(row(:n))
            call say_groups(deleted(:2 * got%deletions), 2)
        case ('lost')
            got = lemidrosy_lost(words, failed, list)
            if (accepted(got%refused)) call say_groups(list(:3 * got%value), 3)
        end select
    end subroutine

    subroutine earliest()
        integer(c_int32_t) :: named(256), row(lemidrosy_max_processes)
        integer(c_int64_t) :: process, checkpoint
        type(lemidrosy_answer) :: got
        integer :: many

        many = 0
        do while (has_word())
            call next_pair(process, checkpoint)
            named(many + 1) = bits(process)
            named(many + 2) = bits(checkpoint)
            many = many + 2
        end do
        got = lemidrosy_earliest(words, named(:many), row)
        if (accepted(got%refused)) call say_all(row(:count_of()))
    end subroutine

    subroutine numbers()
        integer(c_int64_t) :: read(lemidrosy_numbers_size)
        type(lemidrosy_answer) :: got
        integer :: k

        got = lemidrosy_numbers(words, read)
        if (.not. accepted(got%refused)) return
        do k = 1, size(read)
            call say(read(k))
        end do
    end subroutine

    subroutine messages()
        integer(c_int32_t) :: list(lemidrosy_messages_size)
        type(lemidrosy_answer) :: got

        got = lemidrosy_messages(words, list)
        if (accepted(got%refused)) call say_groups(list(:3 * got%value), 3)
    end subroutine

    ! Words that are zero but in some places.
    subroutine spread()
        integer(c_int64_t) :: place, word

        deallocate (words)
        allocate (words(next_number()))
        words = 0
        do while (has_word())
            call next_pair(place, word)
            words(place + 1) = int(merge(word - 65536, word, word > 32767), c_int16_t)
        end do
    end subroutine

    subroutine stored(call_name, file)
        character(len=*), intent(in) :: call_name, file
        integer :: unit

        open (newunit=unit, file=file, access='stream', form='unformatted')
        if (call_name == 'dump') then
            write (unit) words
        else
            deallocate (words)
            allocate (words(lemidrosy_words))
            read (unit) words
        end if
        close (unit)
    end subroutine

    ! As many blocks as it takes.
    subroutine replay()
        logical :: all
        integer(c_int64_t) :: done, taken, progress(lemidrosy_progress_size)
        integer(c_int8_t), allocatable :: records(:)
        character(len=8192) :: text
        character(len=:), allocatable :: lines
        integer :: written
        type(lemidrosy_answer) :: got

        all = next_number() == 1
        done = next_long()
        allocate (records, source=next_bytes())
        taken = 0
        written = 0
        do
            got = lemidrosy_replay(words, all, done + taken, records(4 * taken + 1:), text, progress)
            if (got%refused /= 0) error stop 'a replay is refused'
            call append(lines, written, text(:progress(2)))
            taken = taken + progress(1)
            if (progress(1) == 0 .or. progress(3) /= 1) exit
        end do
        call say(taken)
        call say(progress(3))
        call say_text(lines(:written))
    end subroutine

    subroutine save(file)
        character(len=*), intent(in) :: file
        integer(c_int8_t) :: bytes(lemidrosy_saved_size)
        type(lemidrosy_answer) :: got
        integer :: unit

        got = lemidrosy_save(words, bytes)
        if (.not. accepted(got%refused)) return
        open (newunit=unit, file=file, access='stream', form='unformatted', status='replace')
        write (unit) bytes(:got%value)
        close (unit)
    end subroutine

    subroutine load(bytes)
        integer(c_int8_t), intent(in) :: bytes(:)
        integer(c_int16_t), allocatable :: fresh(:)
        type(lemidrosy_answer) :: got

        allocate (fresh(lemidrosy_words))
        got = lemidrosy_load(bytes, fresh)
        if (accepted(got%refused)) call move_alloc(fresh, words)
    end subroutine

    subroutine in_file(call_name, file)
        character(len=*), intent(in) :: call_name, file
        integer(c_int16_t), allocatable :: fresh(:)
        integer(c_int32_t) :: status

        if (call_name == 'store_file') then
            ! the module takes as many words as a state has
            status = lemidrosy_unsound_state
            if (size(words) == lemidrosy_words) status = lemidrosy_store_file(file, words)
        else
            allocate (fresh(lemidrosy_words))
            status = lemidrosy_load_file(file, fresh)
        end if
        if (status < 0) error stop 'a file cannot be written or read'
        if (accepted(status) .and. allocated(fresh)) call move_alloc(fresh, words)
    end subroutine

    subroutine judge(trace)
        integer(c_int8_t), intent(in) :: trace(:)
        type(lemidrosy_verdict) :: got

        got = lemidrosy_judge(trace)
        if (.not. accepted(got%refused)) return
        if (got%breaks) call say_groups([got%near_process, got%near_index, got%far_process, got%far_index], 2)
    end subroutine

    subroutine merge_halves()
        integer(c_int32_t) :: set
        integer(c_int8_t), allocatable :: first(:), second(:), trace(:)
        type(lemidrosy_answer) :: got

        set = next_bits()
        first = next_bytes()
        second = next_bytes()
        allocate (trace(size(first) + size(second)))
        got = lemidrosy_merge(first, second, set, trace)
        if (accepted(got%refused)) call say_bytes(trace(:got%value))
    end subroutine

    subroutine simulate()
        integer(c_int64_t) :: n, figures(5)
        integer(c_int32_t) :: spacing, steps
        type(lemidrosy_answer) :: got
        integer :: k

        n = next_number()
        if (.not. can_say(n)) return
        spacing = next_bits()
        steps = next_bits()
        got = lemidrosy_simulate(int(n, c_int32_t), spacing, steps, next_bits(), figures)
        if (.not. accepted(got%refused)) return
        do k = 1, size(figures)
            call say(figures(k))
        end do
    end subroutine
end program
