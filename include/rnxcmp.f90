! rnxcmp for Fortran 2003 and later: rnxcmp.h, which says what each call and field is, over iso_c_binding. Version 2 of the interface.
!
!     use rnxcmp
!     type(rnxcmp_options) :: options
!     type(rnxcmp_answer) :: answer
!     character(len=:), allocatable :: input, output, messages
!     integer(c_int) :: status
!     ...
!     status = rnxcmp_compact(input, len(input, c_size_t), options, output, len(output, c_size_t), messages, len(messages, c_size_t), answer)
!     if (status == RNXCMP_FAULT) print *, answer%line, rnxcmp_words(answer%code)
!     if (status > RNXCMP_WARNINGS) print *, rnxcmp_status_words(status)
!
! The program is linked with -lrnxcmp. A room may have the length 0.
module rnxcmp
    use, intrinsic :: iso_c_binding, only: c_int, c_int32_t, c_int64_t, c_size_t, c_char, c_ptr, c_null_ptr, c_f_pointer, &
        c_signed_char
    implicit none
    private
    public :: rnxcmp_compact, rnxcmp_expand, rnxcmp_check, rnxcmp_words, rnxcmp_status_words, rnxcmp_version
    public :: rnxcmp_open_compact, rnxcmp_open_expand, rnxcmp_open_check, rnxcmp_feed, rnxcmp_end, rnxcmp_take, rnxcmp_close
    public :: rnxcmp_options, rnxcmp_answer, rnxcmp_handle
    public :: c_int, c_size_t, c_char

    integer(c_int), parameter, public :: RNXCMP_GOOD = 0, RNXCMP_FAULT = 1, RNXCMP_WARNINGS = 2, RNXCMP_NO_ROOM = 3, &
        RNXCMP_BAD_DATE = 4, RNXCMP_BAD_PROCESSOR = 5, RNXCMP_MISUSED = 6, RNXCMP_OUTPUT_LIMIT = 7
    integer(c_int32_t), parameter, public :: RNXCMP_INPUT_TOO_LONG = 2, RNXCMP_OUT_OF_MEMORY = 22
    integer(c_int), parameter, public :: RNXCMP_INTERFACE = 2
    integer(c_size_t), parameter, public :: RNXCMP_READY = 65536

    ! size is that of this type; date is c_null_ptr, or c_loc of a text (a target) that ends with c_null_char
    type, bind(c) :: rnxcmp_options
        integer(c_size_t) :: size = 32
        integer(c_int32_t) :: every = 0
        integer(c_int32_t) :: skip = 0
        type(c_ptr) :: date = c_null_ptr
        integer(c_int64_t) :: max_output = 0
    end type

    type, bind(c) :: rnxcmp_answer
        integer(c_int64_t) :: line = 0
        integer(c_size_t) :: output_length = 0
        integer(c_size_t) :: messages_length = 0
        integer(c_int32_t) :: status = 0
        integer(c_int32_t) :: code = 0
    end type

    ! a run that goes on from call to call; it is closed as it is declared
    type, bind(c) :: rnxcmp_handle
        private
        type(c_ptr) :: place = c_null_ptr
        integer(c_signed_char) :: is_open = 0
    end type

    interface
        integer(c_int) function rnxcmp_open_compact(handle, options, answer) bind(c, name="rnxcmp_open_compact")
            import :: c_int, rnxcmp_handle, rnxcmp_options, rnxcmp_answer
            type(rnxcmp_handle), intent(inout) :: handle
            type(rnxcmp_options), intent(in) :: options
            type(rnxcmp_answer), intent(out) :: answer
        end function

        integer(c_int) function rnxcmp_open_expand(handle, options, answer) bind(c, name="rnxcmp_open_expand")
            import :: c_int, rnxcmp_handle, rnxcmp_options, rnxcmp_answer
            type(rnxcmp_handle), intent(inout) :: handle
            type(rnxcmp_options), intent(in) :: options
            type(rnxcmp_answer), intent(out) :: answer
        end function

        integer(c_int) function rnxcmp_open_check(handle, answer) bind(c, name="rnxcmp_open_check")
            import :: c_int, rnxcmp_handle, rnxcmp_answer
            type(rnxcmp_handle), intent(inout) :: handle
            type(rnxcmp_answer), intent(out) :: answer
        end function

        integer(c_int) function rnxcmp_feed(handle, bytes, length, used, answer) bind(c, name="rnxcmp_feed")
            import :: c_int, c_size_t, c_char, rnxcmp_handle, rnxcmp_answer
            type(rnxcmp_handle), intent(inout) :: handle
            character(kind=c_char), intent(in) :: bytes(*)
            integer(c_size_t), value :: length
            integer(c_size_t), intent(out) :: used
            type(rnxcmp_answer), intent(out) :: answer
        end function

        integer(c_int) function rnxcmp_end(handle, answer) bind(c, name="rnxcmp_end")
            import :: c_int, rnxcmp_handle, rnxcmp_answer
            type(rnxcmp_handle), intent(inout) :: handle
            type(rnxcmp_answer), intent(out) :: answer
        end function

        integer(c_int) function rnxcmp_take(handle, output, output_room, messages, messages_room, answer) &
                bind(c, name="rnxcmp_take")
            import :: c_int, c_size_t, c_char, rnxcmp_handle, rnxcmp_answer
            type(rnxcmp_handle), intent(inout) :: handle
            character(kind=c_char), intent(inout) :: output(*)
            integer(c_size_t), value :: output_room
            character(kind=c_char), intent(inout) :: messages(*)
            integer(c_size_t), value :: messages_room
            type(rnxcmp_answer), intent(out) :: answer
        end function

        subroutine rnxcmp_close(handle) bind(c, name="rnxcmp_close")
            import :: rnxcmp_handle
            type(rnxcmp_handle), intent(inout) :: handle
        end subroutine

        integer(c_int) function rnxcmp_compact(input, input_length, options, output, output_room, messages, messages_room, answer) &
                bind(c, name="rnxcmp_compact")
            import :: c_int, c_size_t, c_char, rnxcmp_options, rnxcmp_answer
            character(kind=c_char), intent(in) :: input(*)
            integer(c_size_t), value :: input_length
            type(rnxcmp_options), intent(in) :: options
            character(kind=c_char), intent(inout) :: output(*)
            integer(c_size_t), value :: output_room
            character(kind=c_char), intent(inout) :: messages(*)
            integer(c_size_t), value :: messages_room
            type(rnxcmp_answer), intent(out) :: answer
        end function

        integer(c_int) function rnxcmp_expand(input, input_length, options, output, output_room, messages, messages_room, answer) &
                bind(c, name="rnxcmp_expand")
            import :: c_int, c_size_t, c_char, rnxcmp_options, rnxcmp_answer
            character(kind=c_char), intent(in) :: input(*)
            integer(c_size_t), value :: input_length
            type(rnxcmp_options), intent(in) :: options
            character(kind=c_char), intent(inout) :: output(*)
            integer(c_size_t), value :: output_room
            character(kind=c_char), intent(inout) :: messages(*)
            integer(c_size_t), value :: messages_room
            type(rnxcmp_answer), intent(out) :: answer
        end function

        integer(c_int) function rnxcmp_check(input, input_length, output, output_room, messages, messages_room, answer) &
                bind(c, name="rnxcmp_check")
            import :: c_int, c_size_t, c_char, rnxcmp_answer
            character(kind=c_char), intent(in) :: input(*)
            integer(c_size_t), value :: input_length
            character(kind=c_char), intent(inout) :: output(*)
            integer(c_size_t), value :: output_room
            character(kind=c_char), intent(inout) :: messages(*)
            integer(c_size_t), value :: messages_room
            type(rnxcmp_answer), intent(out) :: answer
        end function

        type(c_ptr) function words_at(code) bind(c, name="rnxcmp_words")
            import :: c_ptr, c_int32_t
            integer(c_int32_t), value :: code
        end function

        type(c_ptr) function status_words_at(status) bind(c, name="rnxcmp_status_words")
            import :: c_ptr, c_int32_t
            integer(c_int32_t), value :: status
        end function

        type(c_ptr) function version_at() bind(c, name="rnxcmp_version")
            import :: c_ptr
        end function

        integer(c_size_t) function length_of(text) bind(c, name="strlen")
            import :: c_ptr, c_size_t
            type(c_ptr), value :: text
        end function
    end interface

contains

    ! The words of a fault, as "bad satellite" of 13.
    function rnxcmp_words(code) result(words)
        integer(c_int32_t), intent(in) :: code
        character(len=:), allocatable :: words
        words = text_at(words_at(code))
    end function

    ! The words of a status, as "the output is longer than its room" of 3.
    function rnxcmp_status_words(status) result(words)
        integer(c_int), intent(in) :: status
        character(len=:), allocatable :: words
        words = text_at(status_words_at(int(status, c_int32_t)))
    end function

    ! The version of the library, as "1.0.0".
    function rnxcmp_version() result(version)
        character(len=:), allocatable :: version
        version = text_at(version_at())
    end function

    ! A text of C's.
    function text_at(place) result(text)
        type(c_ptr), intent(in) :: place
        character(len=:), allocatable :: text
        character(kind=c_char), pointer :: characters(:)
        integer(c_size_t) :: i, length
        length = length_of(place)
        call c_f_pointer(place, characters, [length])
        allocate (character(len=length) :: text)
        do i = 1, length
            text(i:i) = characters(i)
        end do
    end function

end module
