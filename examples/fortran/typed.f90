! Types a tree: makes its records, finds the nodes of a label in it, and types it back.
!
!     typed LABEL TEXT
!
! Finds the written nodes of LABEL, 0 to 63, in the tree that TEXT is the bracketed text of, as 9(5 6).
! The tree's pads have label 0 too, and stand in no row.
program typed
  use, intrinsic :: iso_c_binding, only: c_int8_t, c_int16_t, c_int64_t
  use, intrinsic :: iso_fortran_env, only: error_unit
  use tarnsatchel
  implicit none

  integer(c_int8_t) :: tree(tarn_longest_tree)
  integer(c_int64_t), allocatable :: work(:)
  type(tarn_record), allocatable :: table(:)
  integer(c_int16_t) :: head(6), row(1)
  integer(c_int64_t) :: rows, at
  character(tarn_longest_text) :: text
  integer :: tree_length, text_length, label, refused, position

  if (command_argument_count() /= 2) call stop_unable('usage: typed LABEL TEXT')
  label = label_of(word(1))
  call stop_if_refused('text_to_tree', tarn_text_to_tree(word(2), tree, tree_length))
  print '(a, *(1x, i0))', 'tree', tree(:tree_length)

  allocate (work(tarn_most_work), table(tarn_most_records))
  position = 0
  refused = tarn_build([tree(:tree_length), query(label)], work, table, head, position)
  call stop_if_build_refused(refused, position)
  call stop_if_refused('count', tarn_count(head, table, work, rows))
  print '(a, i0)', 'rows ', rows
  do at = 0, rows - 1
    call stop_if_refused('row', tarn_row(head, table, work, at, row))
    print '(i0)', tarn_number(row)
  end do

  call stop_if_refused('tree_to_text', tarn_tree_to_text(tree(:tree_length), text, text_length))
  print '(a, a)', 'text ', text(:text_length)

contains

  function word(at)
    integer, intent(in) :: at
    character(:), allocatable :: word
    integer :: length
    call get_command_argument(at, length=length)
    allocate (character(length) :: word)
    call get_command_argument(at, word)
  end function

  ! The number that a word of digits writes; another word, or a number over 255, ends the program. Over 63 the query is refused.
  integer function label_of(digits) result(label)
    character(*), intent(in) :: digits
    integer :: status
    label = 0
    read (digits, *, iostat=status) label
    if (verify(digits, '0123456789') /= 0 .or. status /= 0 .or. label > 255) &
        call stop_unable('LABEL is no number from 0 to 255')
  end function

  subroutine stop_unable(why)
    character(*), intent(in) :: why
    write (error_unit, '(a)') why
    stop 2, quiet=.true.
  end subroutine

  ! A refusal is told and ends the program.
  subroutine stop_if_refused(asked, refused)
    character(*), intent(in) :: asked
    integer, intent(in) :: refused
    if (refused == 0) return
    print '(a, a, i0)', asked, ' refused ', refused
    stop 1, quiet=.true.
  end subroutine

  ! The first four are told with their position in the stream.
  subroutine stop_if_build_refused(refused, position)
    integer, intent(in) :: refused, position
    if (refused < tarn_refused_tree .or. refused > tarn_refused_twice) then
      call stop_if_refused('build', refused)
      return
    end if
    print '(a, i0, a, i0)', 'build refused ', refused, ' at ', position
    stop 1, quiet=.true.
  end subroutine

  ! The query that finds the nodes of a label: arity 1, state 1 where one is marked, state 0 elsewhere. A branch has its children
  ! on its left and the siblings behind it on its right; the marked node is the branch itself, or among the ones, or among the
  ! others. In this order of the rules the rows come in the order of the text.
  function query(wanted) result(bytes)
    integer, intent(in) :: wanted
    integer(c_int8_t), allocatable :: bytes(:)
    integer :: of
    bytes = int([16, 1, 2, 17, 0, 0, 0, 19, 1, 18, wanted, 1, 0, 0, 1, &
        ([18, of, 0, 0, 0, 0, 18, of, 0, 1, 0, 1, 18, of, 0, 0, 1, 1], of = 0, 63)], c_int8_t)
  end function
end program
