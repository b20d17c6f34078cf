! Tarnsatchel for Fortran: the eight functions of include/tarnsatchel.h, which says what each answers and leaves in its buffers.
! First the type and the fixed numbers, then the interfaces of the C functions, then the functions over assumed-shape arrays.
! Bracketed text is a character variable, everything else that is lent an array.
!
! Each function gives 0 for an answer, else the number of the refusal. Fortran has no unsigned numbers: one of 16 bits above
! 32,767, a blank place among them, is negative in a head, a record or a row, and tarn_number gives it as it is meant.
module tarnsatchel
  use, intrinsic :: iso_c_binding, only: c_char, c_int8_t, c_int16_t, c_int64_t, c_size_t
  implicit none
  private
  public :: tarn_record, tarn_number
  public :: tarn_build, tarn_count, tarn_row, tarn_member, tarn_project, tarn_fix, tarn_text_to_tree, tarn_tree_to_text

  ! One entry of the table; all zeros is the blank entry.
  type, bind(c) :: tarn_record
    integer(c_int16_t) :: kind, node, left, right, flag
  end type

  ! What stands where in a head, an array of six.
  integer, parameter, public :: tarn_nodes = 1, tarn_arity = 2, tarn_open_places = 3, tarn_used = 4, tarn_set = 5, tarn_at = 6
  ! The set in a head; tarn_at then has the record's number.
  integer, parameter, public :: tarn_empty = 0, tarn_unit = 1, tarn_a_record = 2
  ! The numbers that say no.
  integer, parameter, public :: tarn_refused_tree = 1, tarn_refused_many_nodes = 2, tarn_refused_query = 3, &
      tarn_refused_twice = 4, tarn_refused_short_work = 5, tarn_refused_short_table = 6, tarn_refused_place = 7, &
      tarn_refused_node = 8, tarn_refused_row_number = 9, tarn_refused_short_output = 10, tarn_refused_not_sound = 11, &
      tarn_refused_unit_twice = 12, tarn_refused_row_length = 13, tarn_refused_long_input = 14, &
      tarn_refused_text = 15
  ! Stands at a fixed place of a row.
  integer(c_int16_t), parameter, public :: tarn_blank = -1
  ! No build asks for more work, and none makes more records.
  integer, parameter, public :: tarn_most_work = 524544, tarn_most_records = 60000
  ! The most written nodes of a bracketed text. Outputs of so many bytes are long enough for the records of any text, and for
  ! the text of any records.
  integer, parameter, public :: tarn_most_written = 2047, tarn_longest_tree = 8190, tarn_longest_text = 8188

  interface
    function c_build(input, input_length, work, work_length, table, table_length, head, position) result(refused) &
        bind(c, name='tarn_build')
      import :: c_int8_t, c_int16_t, c_int64_t, c_size_t, tarn_record
      integer(c_int8_t), intent(in) :: input(*)
      integer(c_int64_t), intent(inout) :: work(*)
      type(tarn_record), intent(inout) :: table(*)
      integer(c_int16_t), intent(inout) :: head(6)
      integer(c_size_t), intent(inout) :: position
      integer(c_size_t), value :: input_length, work_length, table_length
      integer(c_int8_t) :: refused
    end function

    function c_count(head, table, table_length, work, work_length, rows) result(refused) bind(c, name='tarn_count')
      import :: c_int8_t, c_int16_t, c_int64_t, c_size_t, tarn_record
      integer(c_int16_t), intent(in) :: head(6)
      type(tarn_record), intent(in) :: table(*)
      integer(c_int64_t), intent(inout) :: work(*), rows
      integer(c_size_t), value :: table_length, work_length
      integer(c_int8_t) :: refused
    end function

    function c_row(head, table, table_length, work, work_length, number, row, row_length) result(refused) &
        bind(c, name='tarn_row')
      import :: c_int8_t, c_int16_t, c_int64_t, c_size_t, tarn_record
      integer(c_int16_t), intent(in) :: head(6)
      type(tarn_record), intent(in) :: table(*)
      integer(c_int64_t), intent(inout) :: work(*)
      integer(c_int64_t), value :: number
      integer(c_int16_t), intent(inout) :: row(*)
      integer(c_size_t), value :: table_length, work_length, row_length
      integer(c_int8_t) :: refused
    end function

    function c_member(head, table, table_length, work, work_length, row, row_length, listed) result(refused) &
        bind(c, name='tarn_member')
      import :: c_int8_t, c_int16_t, c_int64_t, c_size_t, tarn_record
      integer(c_int16_t), intent(in) :: head(6), row(*)
      type(tarn_record), intent(in) :: table(*)
      integer(c_int64_t), intent(inout) :: work(*)
      integer(c_int8_t), intent(inout) :: listed
      integer(c_size_t), value :: table_length, work_length, row_length
      integer(c_int8_t) :: refused
    end function

    function c_project(head, table, table_length, work, work_length, place, marks, marks_length) result(refused) &
        bind(c, name='tarn_project')
      import :: c_int8_t, c_int16_t, c_int64_t, c_size_t, tarn_record
      integer(c_int16_t), intent(in) :: head(6)
      type(tarn_record), intent(in) :: table(*)
      integer(c_int64_t), intent(inout) :: work(*)
      integer(c_int16_t), value :: place
      integer(c_int8_t), intent(inout) :: marks(*)
      integer(c_size_t), value :: table_length, work_length, marks_length
      integer(c_int8_t) :: refused
    end function

    function c_fix(head, source, source_length, work, work_length, place, node, target, target_length, fixed) result(refused) &
        bind(c, name='tarn_fix')
      import :: c_int8_t, c_int16_t, c_int64_t, c_size_t, tarn_record
      integer(c_int16_t), intent(in) :: head(6)
      type(tarn_record), intent(in) :: source(*)
      integer(c_int64_t), intent(inout) :: work(*)
      integer(c_int16_t), value :: place, node
      type(tarn_record), intent(inout) :: target(*)
      integer(c_int16_t), intent(inout) :: fixed(6)
      integer(c_size_t), value :: source_length, work_length, target_length
      integer(c_int8_t) :: refused
    end function

    function c_text_to_tree(text, text_length, tree, tree_length, bytes) result(refused) bind(c, name='tarn_text_to_tree')
      import :: c_char, c_int8_t, c_size_t
      character(kind=c_char), intent(in) :: text(*)
      integer(c_int8_t), intent(inout) :: tree(*)
      integer(c_size_t), value :: text_length, tree_length
      integer(c_size_t), intent(inout) :: bytes
      integer(c_int8_t) :: refused
    end function

    function c_tree_to_text(tree, tree_length, text, text_length, bytes) result(refused) bind(c, name='tarn_tree_to_text')
      import :: c_char, c_int8_t, c_size_t
      integer(c_int8_t), intent(in) :: tree(*)
      character(kind=c_char), intent(inout) :: text(*)
      integer(c_size_t), value :: tree_length, text_length
      integer(c_size_t), intent(inout) :: bytes
      integer(c_int8_t) :: refused
    end function
  end interface

contains

  ! Builds the set of a stream. Refused 1 to 6. Position may be left out. With 1 to 4 it is how many bytes stand before the fault,
  ! so that the record at fault begins at input(position + 1); where the tree or the input has ended, that may be behind the last.
  ! With 0, 5 and 6 it stays as it was.
  function tarn_build(input, work, table, head, position) result(refused)
    integer(c_int8_t), contiguous, intent(in) :: input(:)
    integer(c_int64_t), contiguous, intent(inout) :: work(:)
    type(tarn_record), contiguous, intent(inout) :: table(:)
    integer(c_int16_t), intent(inout) :: head(6)
    integer, intent(inout), optional :: position
    integer :: refused
    integer(c_size_t) :: told
    told = 0
    refused = c_build(input, size(input, kind=c_size_t), work, size(work, kind=c_size_t), &
        table, size(table, kind=c_size_t), head, told)
    if (present(position) .and. refused >= tarn_refused_tree .and. refused <= tarn_refused_twice) position = int(told)
  end function

  ! Counts the rows. Refused 5, 11.
  function tarn_count(head, table, work, rows) result(refused)
    integer(c_int16_t), intent(in) :: head(6)
    type(tarn_record), contiguous, intent(in) :: table(:)
    integer(c_int64_t), contiguous, intent(inout) :: work(:)
    integer(c_int64_t), intent(inout) :: rows
    integer :: refused
    refused = c_count(head, table, size(table, kind=c_size_t), work, size(work, kind=c_size_t), rows)
  end function

  ! Writes the row of a number, from 0. Refused 5, 11, 9, 10.
  function tarn_row(head, table, work, number, row) result(refused)
    integer(c_int16_t), intent(in) :: head(6)
    type(tarn_record), contiguous, intent(in) :: table(:)
    integer(c_int64_t), contiguous, intent(inout) :: work(:)
    integer(c_int64_t), intent(in) :: number
    integer(c_int16_t), contiguous, intent(inout) :: row(:)
    integer :: refused
    refused = c_row(head, table, size(table, kind=c_size_t), work, size(work, kind=c_size_t), &
        number, row, size(row, kind=c_size_t))
  end function

  ! Tells whether a row is listed. Refused 5, 11, 13, 8.
  function tarn_member(head, table, work, row, listed) result(refused)
    integer(c_int16_t), intent(in) :: head(6)
    type(tarn_record), contiguous, intent(in) :: table(:)
    integer(c_int64_t), contiguous, intent(inout) :: work(:)
    integer(c_int16_t), contiguous, intent(in) :: row(:)
    logical, intent(inout) :: listed
    integer :: refused
    integer(c_int8_t) :: told
    told = 0
    refused = c_member(head, table, size(table, kind=c_size_t), work, size(work, kind=c_size_t), &
        row, size(row, kind=c_size_t), told)
    if (refused == 0) listed = told == 1
  end function

  ! Marks the nodes that stand at a place. Refused 5, 11, 7, 10.
  function tarn_project(head, table, work, place, marks) result(refused)
    integer(c_int16_t), intent(in) :: head(6)
    type(tarn_record), contiguous, intent(in) :: table(:)
    integer(c_int64_t), contiguous, intent(inout) :: work(:)
    integer, intent(in) :: place
    integer(c_int8_t), contiguous, intent(inout) :: marks(:)
    integer :: refused
    refused = c_project(head, table, size(table, kind=c_size_t), work, size(work, kind=c_size_t), &
        sixteen_bits(place), marks, size(marks, kind=c_size_t))
  end function

  ! Fixes a place at a node, into a second table. Refused 5, 11, 7, 8, 6, 12.
  function tarn_fix(head, source, work, place, node, target, fixed) result(refused)
    integer(c_int16_t), intent(in) :: head(6)
    type(tarn_record), contiguous, intent(in) :: source(:)
    integer(c_int64_t), contiguous, intent(inout) :: work(:)
    integer, intent(in) :: place, node
    type(tarn_record), contiguous, intent(inout) :: target(:)
    integer(c_int16_t), intent(inout) :: fixed(6)
    integer :: refused
    refused = c_fix(head, source, size(source, kind=c_size_t), work, size(work, kind=c_size_t), &
        sixteen_bits(place), sixteen_bits(node), target, size(target, kind=c_size_t), fixed)
  end function

  ! Makes tree records of bracketed text: tree(:bytes). Lines that are read one by one need new_line('a') between them, which ends
  ! a comment and separates two numbers. Refused 15, 10.
  function tarn_text_to_tree(text, tree, bytes) result(refused)
    character(*, c_char), intent(in) :: text
    integer(c_int8_t), contiguous, intent(inout) :: tree(:)
    integer, intent(inout) :: bytes
    integer :: refused
    integer(c_size_t) :: told
    told = 0
    refused = c_text_to_tree(text, len(text, kind=c_size_t), tree, size(tree, kind=c_size_t), told)
    if (refused == 0) bytes = int(told)
  end function

  ! Writes the canonical text of tree records that are the image of a written tree: text(:bytes). What stands behind it in the
  ! variable stays; it is not filled up with blanks. Refused 15, 10.
  function tarn_tree_to_text(tree, text, bytes) result(refused)
    integer(c_int8_t), contiguous, intent(in) :: tree(:)
    character(*, c_char), intent(inout) :: text
    integer, intent(inout) :: bytes
    integer :: refused
    integer(c_size_t) :: told
    told = 0
    refused = c_tree_to_text(tree, size(tree, kind=c_size_t), text, len(text, kind=c_size_t), told)
    if (refused == 0) bytes = int(told)
  end function

  ! A number of 16 bits as it is meant, 0 to 65,535.
  elemental integer function tarn_number(bits)
    integer(c_int16_t), intent(in) :: bits
    tarn_number = iand(int(bits), 65535)
  end function

  ! The number's 16 bits. One that they do not hold becomes 65,535, which is no place and no node.
  elemental integer(c_int16_t) function sixteen_bits(number)
    integer, intent(in) :: number
    if (number < 0 .or. number > 65535) then
      sixteen_bits = -1
    else if (number > 32767) then
      sixteen_bits = int(number - 65536, c_int16_t)
    else
      sixteen_bits = int(number, c_int16_t)
    end if
  end function
end module
