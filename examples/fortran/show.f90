! Builds the set of a stream and asks it everything: how many rows, a page of them, whether a row is among them, which nodes
! stand at a place, and which rows have a node there.
!
!     show STREAM FIRST LAST PLACE NODE ROW ..
!
! Lists rows FIRST to LAST, projects PLACE and fixes it at NODE, and looks for ROW, a node for each place.
program show
  use, intrinsic :: iso_c_binding, only: c_int8_t, c_int16_t, c_int64_t
  use, intrinsic :: iso_fortran_env, only: error_unit
  use tarnsatchel
  implicit none

  integer(c_int8_t), allocatable :: input(:)
  integer(c_int64_t), allocatable :: work(:)
  type(tarn_record), allocatable :: table(:), target(:)
  integer(c_int16_t) :: head(6)
  integer :: refused, position

  if (command_argument_count() < 6) call stop_unable('usage: show STREAM FIRST LAST PLACE NODE ROW ..')
  allocate (work(tarn_most_work), table(tarn_most_records), target(tarn_most_records))
  input = stream(word(1))
  position = 0
  refused = tarn_build(input, work, table, head, position)
  call stop_if_build_refused(refused, position)
  print '(a, i0)', 'records ', tarn_number(head(tarn_used))
  print '(a, i0)', 'rows ', count_of(head, table)
  print '(a, i0, a, i0, a)', 'rows ', number(2), ' to ', number(3), ':'
  call list(head, table, int(number(2), c_int64_t), int(number(3), c_int64_t))
  call ask_member()
  call project(number(4))
  call fix(number(4), number(5))

contains

  function word(at)
    integer, intent(in) :: at
    character(:), allocatable :: word
    integer :: length
    call get_command_argument(at, length=length)
    allocate (character(length) :: word)
    call get_command_argument(at, word)
  end function

  integer function number(at)
    integer, intent(in) :: at
    character(:), allocatable :: text
    text = word(at)
    read (text, *) number
  end function

  function stream(name) result(bytes)
    character(*), intent(in) :: name
    integer(c_int8_t), allocatable :: bytes(:)
    integer :: unit, length, status
    open (newunit=unit, file=name, access='stream', form='unformatted', action='read', status='old', iostat=status)
    if (status /= 0) call stop_unable('cannot open ' // name)
    inquire (unit, size=length)
    allocate (bytes(max(length, 0)))
    read (unit) bytes
    close (unit)
  end function

  subroutine stop_unable(why)
    character(*), intent(in) :: why
    write (error_unit, '(a)') why
    stop 2, quiet=.true.
  end subroutine

  ! A refusal is told and ends the program.
  subroutine stop_if_refused(asked, refused)
    character(*), intent(in) :: asked
    integer, intent(in) :: refused
    if (refused == 0) return
    print '(a, a, i0)', asked, ' refused ', refused
    stop 1, quiet=.true.
  end subroutine

  ! The first four are told with their position in the stream.
  subroutine stop_if_build_refused(refused, position)
    integer, intent(in) :: refused, position
    if (refused < tarn_refused_tree .or. refused > tarn_refused_twice) then
      call stop_if_refused('build', refused)
      return
    end if
    print '(a, i0, a, i0)', 'build refused ', refused, ' at ', position
    stop 1, quiet=.true.
  end subroutine

  function count_of(of, records) result(rows)
    integer(c_int16_t), intent(in) :: of(6)
    type(tarn_record), intent(in) :: records(:)
    integer(c_int64_t) :: rows
    rows = 0
    call stop_if_refused('count', tarn_count(of, records, work, rows))
  end function

  ! Rows first to last, as far as there are; a fixed place is shown as '-'.
  subroutine list(of, records, first, last)
    integer(c_int16_t), intent(in) :: of(6)
    type(tarn_record), intent(in) :: records(:)
    integer(c_int64_t), intent(in) :: first, last
    integer(c_int64_t) :: at
    integer(c_int16_t) :: row(4)
    do at = first, min(last, count_of(of, records) - 1)
      call stop_if_refused('row', tarn_row(of, records, work, at, row))
      print '(a)', text_of(row(:of(tarn_arity)))
    end do
  end subroutine

  function text_of(row) result(text)
    integer(c_int16_t), intent(in) :: row(:)
    character(:), allocatable :: text
    character(5) :: node
    integer :: place
    text = ''
    do place = 1, size(row)
      write (node, '(i0)') tarn_number(row(place))
      if (row(place) == tarn_blank) node = '-'
      if (place > 1) text = text // ' '
      text = text // trim(node)
    end do
  end function

  subroutine ask_member()
    integer(c_int16_t) :: row(command_argument_count() - 5)
    logical :: listed
    integer :: place
    do place = 1, size(row)
      row(place) = int(number(5 + place), c_int16_t)
    end do
    call stop_if_refused('member', tarn_member(head, table, work, row, listed))
    print '(a, a, a, a)', 'member ', text_of(row), ': ', trim(merge('yes', 'no ', listed))
  end subroutine

  subroutine project(place)
    integer, intent(in) :: place
    integer(c_int8_t) :: marks(head(tarn_nodes))
    integer :: node
    call stop_if_refused('project', tarn_project(head, table, work, place, marks))
    print '(a, i0, a, *(1x, i0))', 'place ', place, ':', pack([(node, node = 0, size(marks) - 1)], marks == 1)
  end subroutine

  subroutine fix(place, node)
    integer, intent(in) :: place, node
    integer(c_int16_t) :: fixed(6)
    integer(c_int64_t) :: rows
    call stop_if_refused('fix', tarn_fix(head, table, work, place, node, target, fixed))
    rows = count_of(fixed, target)
    print '(a, i0, a, i0, a, i0)', 'place ', place, ' fixed at ', node, ': rows ', rows
    call list(fixed, target, 0_c_int64_t, rows)
  end subroutine
end program
