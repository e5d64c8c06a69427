with Ada.Text_IO; with Ada.Unchecked_Deallocation; with Run_Input;
procedure Main is
Size : constant := 12; Low : constant := -2;
type Node is record Value : Integer := 0; end record; type Link is access Node;
type Table is record Rows : Integer := Size; Least : Integer := Low; Open : Boolean := True; Shut : Boolean := False; First : Link; end record;

R : Table;
begin
Ada.Text_IO.Put_Line (Integer'Image (R.Rows));
Ada.Text_IO.Put_Line (Integer'Image (R.Least));
if R.Open and not R.Shut and R.First = null then Ada.Text_IO.Put_Line ("as declared"); end if;
end Main;
