with Ada.Unchecked_Deallocation;
procedure Main is
   type Node is record
      Value : Integer := 0;
      Count : Integer := 0;
   end record;
   type Link is access Node;
   procedure Free is new Ada.Unchecked_Deallocation (Node, Link);
begin
   declare
      procedure Free is new Ada.Unchecked_Deallocation (Node, Link);
   begin
      null;
   end;
end Main;
