! Compacts a RINEX file into memory, expands that again, and says whether the file came back, or its normal form, as a file does that isn't
! standard: compact FILE
program compact
    use rnxcmp
    use, intrinsic :: iso_c_binding, only: c_loc, c_null_char
    implicit none
    character(len=4096) :: name
    character(len=:), allocatable :: file, compacted, back
    character(len=1) :: messages
    character(len=16), target :: date
    type(rnxcmp_options) :: options
    type(rnxcmp_answer) :: answer
    integer(c_int) :: status
    integer :: unit, bytes
    logical :: same

    call get_command_argument(1, name)
    open (newunit=unit, file=trim(name), access="stream", form="unformatted", status="old", action="read")
    inquire (unit=unit, size=bytes)
    allocate (character(len=bytes) :: file)
    read (unit) file
    close (unit)

    ! a call without room says how much the output needs
    date = "01-Jan-24 00:00" // c_null_char
    options%date = c_loc(date)
    compacted = ""
    status = rnxcmp_compact(file, len(file, c_size_t), options, compacted, 0_c_size_t, messages, 0_c_size_t, answer)
    deallocate (compacted)
    allocate (character(len=answer%output_length) :: compacted)
    status = rnxcmp_compact(file, len(file, c_size_t), options, compacted, len(compacted, c_size_t), messages, 0_c_size_t, answer)
    call demand_good

    back = ""
    status = rnxcmp_expand(compacted, len(compacted, c_size_t), options, back, 0_c_size_t, messages, 0_c_size_t, answer)
    deallocate (back)
    allocate (character(len=answer%output_length) :: back)
    status = rnxcmp_expand(compacted, len(compacted, c_size_t), options, back, len(back, c_size_t), messages, 0_c_size_t, answer)
    call demand_good

    same = len(back) == len(file) .and. back == file
    write (*, "(i0, ' bytes, compact ', i0, ': ', a)") len(file), len(compacted), &
        trim(merge("the same again ", "its normal form", same))

contains

    ! Ends the program where a run didn't go well.
    subroutine demand_good
        if (status == RNXCMP_FAULT) then
            write (*, "(a, ': line ', i0, ': ', a)") trim(name), answer%line, rnxcmp_words(answer%code)
        else if (status /= RNXCMP_GOOD) then
            write (*, "(a, ': ', a)") trim(name), rnxcmp_status_words(status)
        end if
        if (status /= RNXCMP_GOOD) error stop 1
    end subroutine
end program
