with Ada.Text_IO;
with Ada.Unchecked_Deallocation;

procedure Main is
   procedure Make is
      type Cell;
      type Chain is access Cell;
   begin
      null;
   end Make;
begin
   null;
end Main;
