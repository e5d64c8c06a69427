with Ada.Text_IO; with Ada.Unchecked_Deallocation; with Run_Input;
procedure Main is
type Row is record
C0 : Integer := 1; C1 : Integer := 1; C2 : Integer := 1; C3 : Integer := 1; C4 : Integer := 1; C5 : Integer := 1; C6 : Integer := 1; C7 : Integer := 1;
C8 : Integer := 1; C9 : Integer := 1; CA : Integer := 1; CB : Integer := 1; CC : Integer := 1; CD : Integer := 1; CE : Integer := 1; CF : Integer := 1;
end record;
type Table is record
C0 : Row; C1 : Row; C2 : Row; C3 : Row; C4 : Row; C5 : Row; C6 : Row; C7 : Row;
C8 : Row; C9 : Row; CA : Row; CB : Row; CC : Row; CD : Row; CE : Row;
end record;
type Book is record
C0 : Table; C1 : Table; C2 : Table; C3 : Table; C4 : Table; C5 : Table; C6 : Table; C7 : Table;
C8 : Table; C9 : Table; CA : Table; CB : Table; CC : Table; CD : Table; CE : Table; CF : Table;
end record;

R : Book; N : Integer := 0;
begin
R.CF.CE.CF := 7; R.C0.C0.C0 := 9; N := R.CF.CE.CE;
Ada.Text_IO.Put_Line (Integer'Image (R.CF.CE.CF * 100 + R.C0.C0.C0 * 10 + N));
end Main;
