! rule RULE: runs the rule in the file RULE on the proved machine, with the station's bytes from standard input and
! a limit of 1024. Standard output gets the bytes that the rule prints, standard error the number of the answer. The
! exit status is 0 where the rule halted, 1 where it was refused and 2 otherwise. Without RULE it asks the functions
! that this does not need. README.md says how to build it.

! include/nanocore.h in Fortran, which has no unsigned numbers: a byte of 128 to 255 is here one of -128 to -1. to_byte
! and to_number go from one to the other.
module nanocore
    use, intrinsic :: iso_c_binding, only: c_int8_t, c_int16_t, c_size_t
    implicit none

    ! The record's length, and where its fields begin, for a record that is declared as machine(0:record_length - 1).
    integer, parameter :: record_length = 296
    integer, parameter :: at_version = 0, at_set = 1, at_pc = 2, at_sp = 3, at_flags = 4, at_halted = 5
    integer, parameter :: at_count = 8, at_limit = 12, at_registers = 24, at_memory = 40

    ! Two of the answers; the header has them all.
    integer(c_size_t), parameter :: done = 0, halts = 1

    interface
        pure integer(c_size_t) function nanocore_version() bind(C)
            import
        end function

        pure integer(c_size_t) function nanocore_operations() bind(C)
            import
        end function

        integer(c_size_t) function nanocore_fresh(machine, machine_length) bind(C)
            import
            integer(c_int8_t), intent(inout) :: machine(*)
            integer(c_size_t), value :: machine_length
        end function

        integer(c_size_t) function nanocore_load(machine, machine_length, program, program_length, start, &
                values) bind(C)
            import
            integer(c_int8_t), intent(inout) :: machine(*)
            integer(c_size_t), value :: machine_length
            integer(c_int8_t), intent(in) :: program(*)
            integer(c_size_t), value :: program_length
            integer(c_int8_t), value :: start
            integer(c_size_t), intent(inout) :: values(2)
        end function

        integer(c_size_t) function nanocore_step(machine, machine_length, input, input_length, place, &
                output, output_length, written, values) bind(C)
            import
            integer(c_int8_t), intent(inout) :: machine(*)
            integer(c_size_t), value :: machine_length
            integer(c_int8_t), intent(in) :: input(*)
            integer(c_size_t), value :: input_length
            integer(c_size_t), intent(inout) :: place
            integer(c_int8_t), intent(inout) :: output(*)
            integer(c_size_t), value :: output_length
            integer(c_size_t), intent(inout) :: written
            integer(c_size_t), intent(inout) :: values(2)
        end function

        integer(c_size_t) function nanocore_run(machine, machine_length, input, input_length, place, &
                output, output_length, written, values) bind(C)
            import
            integer(c_int8_t), intent(inout) :: machine(*)
            integer(c_size_t), value :: machine_length
            integer(c_int8_t), intent(in) :: input(*)
            integer(c_size_t), value :: input_length
            integer(c_size_t), intent(inout) :: place
            integer(c_int8_t), intent(inout) :: output(*)
            integer(c_size_t), value :: output_length
            integer(c_size_t), intent(inout) :: written
            integer(c_size_t), intent(inout) :: values(2)
        end function

        integer(c_size_t) function nanocore_decode(opcode, second, third, parts) bind(C)
            import
            integer(c_int8_t), value :: opcode, second, third
            integer(c_size_t), intent(out) :: parts(6)
        end function

        integer(c_size_t) function nanocore_encode(opcode, form, first, second, bytes, length, values) bind(C)
            import
            integer(c_int8_t), value :: opcode, form, first, second
            integer(c_int8_t), intent(out) :: bytes(3)
            integer(c_size_t), intent(out) :: length, values(2)
        end function

        integer(c_size_t) function nanocore_list(program, program_length, start, text, text_length, values) bind(C)
            import
            integer(c_int8_t), intent(in) :: program(*)
            integer(c_size_t), value :: program_length
            integer(c_int8_t), value :: start
            integer(c_int8_t), intent(inout) :: text(*)
            integer(c_size_t), value :: text_length
            integer(c_size_t), intent(out) :: values(2)
        end function

        integer(c_size_t) function nanocore_labels(source, source_length, count, places, lengths, addresses, &
                values) bind(C)
            import
            integer(c_int8_t), intent(in) :: source(*)
            integer(c_size_t), value :: source_length
            integer(c_size_t), intent(out) :: count
            integer(c_int16_t), intent(out) :: places(64), lengths(64)
            integer(c_int8_t), intent(out) :: addresses(64)
            integer(c_size_t), intent(out) :: values(2)
        end function

        integer(c_size_t) function nanocore_read_hex(text, text_length, image, image_length, marks, marks_length, &
                values) bind(C)
            import
            integer(c_int8_t), intent(in) :: text(*)
            integer(c_size_t), value :: text_length
            integer(c_int8_t), intent(inout) :: image(*)
            integer(c_size_t), value :: image_length
            integer(c_int8_t), intent(inout) :: marks(*)
            integer(c_size_t), value :: marks_length
            integer(c_size_t), intent(out) :: values(2)
        end function

        integer(c_size_t) function nanocore_write_hex(image, image_length, marks, marks_length, text, text_length, &
                values) bind(C)
            import
            integer(c_int8_t), intent(in) :: image(*)
            integer(c_size_t), value :: image_length
            integer(c_int8_t), intent(in) :: marks(*)
            integer(c_size_t), value :: marks_length
            integer(c_int8_t), intent(inout) :: text(*)
            integer(c_size_t), value :: text_length
            integer(c_size_t), intent(out) :: values(2)
        end function

        integer(c_size_t) function nanocore_transfer(machine, machine_length, image, image_length, marks, &
                marks_length) bind(C)
            import
            integer(c_int8_t), intent(inout) :: machine(*)
            integer(c_size_t), value :: machine_length
            integer(c_int8_t), intent(in) :: image(*)
            integer(c_size_t), value :: image_length
            integer(c_int8_t), intent(in) :: marks(*)
            integer(c_size_t), value :: marks_length
        end function
    end interface

contains

    elemental integer(c_int8_t) function to_byte(number)
        integer, intent(in) :: number
        to_byte = int(merge(number - 256, number, number > 127), c_int8_t)
    end function

    elemental integer function to_number(byte)
        integer(c_int8_t), intent(in) :: byte
        to_number = iand(int(byte), 255)
    end function
end module

program run_rule
    use, intrinsic :: iso_c_binding, only: c_int
    use, intrinsic :: iso_fortran_env, only: error_unit, iostat_end
    use nanocore
    implicit none

    ! C's own, for the bytes that are printed: in gfortran 12.2 WRITE, FLUSH and CLOSE to /dev/full all succeed.
    interface
        integer(c_size_t) function write_some(file, bytes, length) bind(C, name='write')
            import
            integer(c_int), value :: file
            integer(c_int8_t), intent(in) :: bytes(*)
            integer(c_size_t), value :: length
        end function
    end interface

    integer(c_size_t), parameter :: machine_length = record_length, room = 65536
    integer(c_int8_t) :: machine(0:record_length - 1), rule(room), input(room), output(room)
    integer(c_size_t) :: answer, values(2), place = 0, written = 0, rule_length, input_length
    character(4096) :: name

    ! The first question, as in rule.c: a build that does not know STR knows fewer operations.
    if (nanocore_version() /= 1 .or. nanocore_operations() /= 40) call fail('this is another build')
    if (command_argument_count() == 0) then
        call ask_others
        stop
    end if

    ! Of neither is more read than there is room for: a byte of input takes a step, and a rule of 65,536 bytes is
    ! refused as a longer one would be.
    call get_command_argument(1, name)
    call read_bytes(trim(name), rule, rule_length)
    call read_bytes('/dev/stdin', input, input_length)

    answer = nanocore_fresh(machine, machine_length)
    answer = nanocore_load(machine, machine_length, rule, rule_length, to_byte(0), values)
    if (answer == done) then
        answer = nanocore_run(machine, machine_length, input, input_length, place, output, room, written, values)
    end if
    call print_bytes(output(:written))
    write (error_unit, '(a, i0)') 'answer ', answer
    if (answer /= halts) stop 1, quiet=.true.

contains

    subroutine fail(why)
        character(*), intent(in) :: why
        write (error_unit, '(2a)') 'rule: ', trim(why)
        stop 2, quiet=.true.
    end subroutine

    subroutine read_bytes(name, bytes, length)
        character(*), intent(in) :: name
        integer(c_int8_t), intent(out) :: bytes(room)
        integer(c_size_t), intent(out) :: length
        integer :: unit, status
        character(200) :: message
        open (newunit=unit, file=name, access='stream', form='unformatted', action='read', status='old', &
            iostat=status, iomsg=message)
        if (status /= 0) call fail(message)
        do length = 0, room - 1
            read (unit, iostat=status, iomsg=message) bytes(length + 1)
            if (status == iostat_end) exit
            if (status /= 0) call fail(message)
        end do
        close (unit)
    end subroutine

    subroutine print_bytes(bytes)
        integer(c_int8_t), intent(in), contiguous :: bytes(:)
        integer(c_size_t) :: printed, more
        printed = 0
        do while (printed < size(bytes))
            more = write_some(1_c_int, bytes(printed + 1:), size(bytes) - printed)
            if (more <= 0) call fail('standard output cannot be written')
            printed = printed + more
        end do
    end subroutine

    ! Asks the other functions for answers that are known: a wrong declaration compiles and links as a right one does.
    subroutine ask_others
        character(*), parameter :: eol = new_line('a')
        character(*), parameter :: source = 'one:' // eol // 'LDI R5 0x80' // eol // 'last:' // eol // 'HLT' // eol
        character(*), parameter :: listing = '0xFC LDI R5 0x80' // eol // '0xFF HLT' // eol
        character(*), parameter :: hex = ':0400FC000205800079' // eol // ':00000001FF' // eol
        integer(c_size_t) :: parts(6), length, count
        integer(c_int16_t) :: places(64), lengths(64)
        integer(c_int8_t) :: program(4), bytes(3), text(100), addresses(64), image(0:255), marks(0:255)

        program = to_byte([2, 5, 128, 0]) ! LDI R5 0x80, HLT
        answer = nanocore_fresh(machine, machine_length)
        answer = nanocore_load(machine, machine_length, program, 4_c_size_t, to_byte(252), values)
        call expect('load', answer == done .and. to_number(machine(at_pc)) == 252)
        answer = nanocore_step(machine, machine_length, input, 0_c_size_t, place, output, 0_c_size_t, written, values)
        call expect('step', answer == done .and. to_number(machine(at_registers + 5)) == 128)

        answer = nanocore_decode(to_byte(2), to_byte(5), to_byte(128), parts)
        call expect('decode', answer == done .and. all(parts == [2, 1, 5, 128, 3, 1]))
        answer = nanocore_decode(to_byte(13), to_byte(241), to_byte(0), parts) ! INC R1, not in its plain spelling
        call expect('decode', answer == done .and. all(parts == [13, 3, 1, 0, 2, 0]))
        answer = nanocore_encode(to_byte(2), to_byte(1), to_byte(5), to_byte(128), bytes, length, values)
        call expect('encode', answer == done .and. all(bytes == program(:3)) .and. length == 3)

        answer = nanocore_list(program, 4_c_size_t, to_byte(252), text, 100_c_size_t, values)
        call expect('list', answer == done .and. values(1) == len(listing))
        call expect('list', all(text(:len(listing)) == transfer(listing, text)))
        answer = nanocore_labels(transfer(source, text), len(source, c_size_t), count, places, lengths, addresses, &
            values)
        call expect('labels', answer == done .and. count == 2)
        call expect('labels', places(2) == 17 .and. lengths(2) == 4 .and. addresses(2) == 3)

        answer = nanocore_read_hex(transfer(hex, text), len(hex, c_size_t), image, 256_c_size_t, marks, 256_c_size_t, &
            values)
        call expect('read_hex', answer == done .and. all(image(252:) == program) .and. all(marks(251:) == [0, 1, 1, 1, 1]))
        answer = nanocore_write_hex(image, 256_c_size_t, marks, 256_c_size_t, text, 100_c_size_t, values)
        call expect('write_hex', answer == done .and. values(1) == len(hex))
        call expect('write_hex', all(text(:len(hex)) == transfer(hex, text)))
        answer = nanocore_fresh(machine, machine_length)
        answer = nanocore_transfer(machine, machine_length, image, 256_c_size_t, marks, 256_c_size_t)
        call expect('transfer', answer == done .and. all(machine(at_memory + 252:) == program))
    end subroutine

    subroutine expect(what, holds)
        character(*), intent(in) :: what
        logical, intent(in) :: holds
        if (.not. holds) call fail(what // ' does not answer as declared')
    end subroutine
end program
