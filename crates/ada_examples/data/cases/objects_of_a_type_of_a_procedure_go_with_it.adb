with Ada.Text_IO;
with Ada.Unchecked_Deallocation;

procedure Main is
   procedure Make (Last : Integer) is
      type Cell is record
         Value : Integer := 0;
      end record;
      type Chain is access Cell;
      Top : Chain;
   begin
      Top := new Cell'(Value => Last);
      Top := new Cell'(Value => Top.Value + 1);
      Ada.Text_IO.Put_Line (Integer'Image (Top.Value));
   end Make;
begin
   Make (3);
   Make (4);
end Main;
