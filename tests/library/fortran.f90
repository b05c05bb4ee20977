! The library from Fortran, by calls and by handles: fortran RINEX COMPACT, a standard file and its compact text, which has the date of this
! program. Prints what is wrong, and the report of the check; the status is 1 where something is.
program fortran
    use rnxcmp
    use, intrinsic :: iso_c_binding, only: c_loc, c_null_char, c_int32_t
    implicit none
    integer(c_size_t), parameter :: piece = 1000, room_length = 700, notes_length = 9
    character(len=:), allocatable :: rinex, compacted, made, told
    character(len=16), target :: date
    character(len=800) :: room
    character(len=100) :: notes
    type(rnxcmp_options) :: options
    type(rnxcmp_answer) :: answer
    type(rnxcmp_handle) :: handle
    integer(c_int) :: status
    logical :: good

    good = .true.
    rinex = content(1)
    compacted = content(2)
    date = "01-Jan-24 00:00" // c_null_char
    options%date = c_loc(date)

    status = rnxcmp_open_compact(handle, options, answer)
    call expect(status == RNXCMP_GOOD, "opened for a compaction")
    call expect(rnxcmp_open_compact(handle, options, answer) == RNXCMP_MISUSED, "opened twice")
    call run_through(rinex)
    call expect(status == RNXCMP_GOOD .and. made == compacted .and. len(told) == 0, "a compaction")

    status = rnxcmp_open_expand(handle, options, answer)
    call run_through(compacted)
    call expect(status == RNXCMP_GOOD .and. made == rinex, "an expansion")

    options%max_output = len(rinex, c_size_t) - 1
    status = rnxcmp_open_expand(handle, options, answer)
    call run_through(compacted)
    call expect(status == RNXCMP_OUTPUT_LIMIT .and. len(made) < len(rinex), "a limit")
    call expect(index(rinex, made) == 1, "what a limit leaves")
    options%max_output = 0

    status = rnxcmp_open_check(handle, answer)
    call run_through(rinex(1:len(rinex) - 1) // "  " // rinex(len(rinex):))
    call expect(status == RNXCMP_WARNINGS, "a file that isn't standard")
    status = rnxcmp_check(rinex, len(rinex, c_size_t), room, room_length, notes, notes_length, answer)
    call expect(status == RNXCMP_GOOD .and. answer%status == RNXCMP_GOOD .and. answer%messages_length == 0, "a check")
    made = room(1:answer%output_length)
    write (*, "(a)", advance="no") made
    status = rnxcmp_open_check(handle, answer)
    told = made
    call run_through(rinex)
    call expect(status == RNXCMP_GOOD .and. index(made, "standard yes") > 0, "a check by a handle")

    status = rnxcmp_expand("x", 1_c_size_t, options, room, room_length, notes, notes_length, answer)
    call expect(status == RNXCMP_FAULT .and. answer%code == 8 .and. answer%line == 1, "a fault")
    call expect(answer%messages_length > notes_length .and. notes(1:notes_length) == "ERROR lin", "its message")
    call expect(rnxcmp_words(answer%code) == "not compact RINEX 3.0", "its words")
    status = rnxcmp_open_expand(handle, options, answer)
    call run_through("x" // new_line("x"))
    call expect(status == RNXCMP_FAULT .and. answer%code == 8, "a fault by a handle")
    call expect(made == "" .and. told == "ERROR line 1 code 8: not compact RINEX 3.0" // new_line("x"), "its message by a handle")
    options%size = 31
    status = rnxcmp_compact(rinex, len(rinex, c_size_t), options, room, room_length, notes, notes_length, answer)
    call expect(status == RNXCMP_MISUSED .and. rnxcmp_status_words(status) == "the call is misused", "options of another size")
    if (.not. good) error stop 1

contains

    ! All bytes of the file that an argument names.
    function content(number) result(bytes)
        integer, intent(in) :: number
        character(len=:), allocatable :: bytes
        character(len=4096) :: name
        integer :: unit, length
        call get_command_argument(number, name)
        open (newunit=unit, file=trim(name), access="stream", form="unformatted", status="old", action="read")
        inquire (unit=unit, size=length)
        allocate (character(len=length) :: bytes)
        read (unit) bytes
        close (unit)
    end function

    subroutine expect(holds, what)
        logical, intent(in) :: holds
        character(len=*), intent(in) :: what
        if (.not. holds) print "(a, a)", "wrong: ", what
        good = good .and. holds
    end subroutine

    ! Feeds pieces, takes all of both texts, ends and closes; the status is that of the end.
    subroutine run_through(input)
        character(len=*), intent(in) :: input
        integer(c_size_t) :: from, used
        type(rnxcmp_answer) :: later
        made = ""
        told = ""
        from = 1
        do while (status == RNXCMP_GOOD .and. from <= len(input))
            status = rnxcmp_feed(handle, input(from:), min(piece, len(input) - from + 1), used, answer)
            call expect(used == min(piece, len(input) - from + 1), "bytes used")
            from = from + used
            call take_all
        end do
        if (status == RNXCMP_GOOD) status = rnxcmp_end(handle, answer)
        call take_all
        call expect(rnxcmp_end(handle, later) == RNXCMP_MISUSED, "ended twice")
        call rnxcmp_close(handle)
        call expect(rnxcmp_feed(handle, "x", 1_c_size_t, used, later) == RNXCMP_MISUSED .and. used == 0, "fed when closed")
    end subroutine

    subroutine take_all
        integer(c_size_t) :: of_output, of_messages
        do while (answer%output_length > 0 .or. answer%messages_length > 0)
            of_output = answer%output_length
            of_messages = answer%messages_length
            room = repeat("#", len(room))
            notes = repeat("#", len(notes))
            call expect(rnxcmp_take(handle, room, room_length, notes, notes_length, answer) == status, "taken")
            call expect(room(room_length + 1:) == repeat("#", len(room) - room_length), "what is behind the room")
            call expect(notes(notes_length + 1:) == repeat("#", len(notes) - notes_length), "what is behind the messages' room")
            made = made // room(1:of_output - answer%output_length)
            told = told // notes(1:of_messages - answer%messages_length)
        end do
    end subroutine
end program
