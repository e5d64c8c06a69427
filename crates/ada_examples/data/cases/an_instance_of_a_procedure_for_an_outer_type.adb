with Ada.Text_IO;
with Ada.Unchecked_Deallocation;

procedure Main is
   type Cell is record
      Value : Integer := 0;
   end record;
   type Chain is access Cell;
   procedure Make is
      procedure Free is new Ada.Unchecked_Deallocation (Cell, Chain);
   begin
      null;
   end Make;
begin
   null;
end Main;
