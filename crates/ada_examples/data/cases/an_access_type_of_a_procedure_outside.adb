with Ada.Text_IO;
with Ada.Unchecked_Deallocation;

procedure Main is
   procedure Make is
      type Cell is record
         Value : Integer := 0;
      end record;
      type Chain is access Cell;
   begin
      null;
   end Make;
   Top : Chain;
begin
   null;
end Main;
