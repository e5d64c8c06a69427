with Ada.Unchecked_Deallocation;
procedure Main is
   type Node is record
      Value : Integer := 0;
      Count : Integer := 0;
   end record;
   type Link is access Node;
   procedure Free is new Ada.Unchecked_Deallocation (Node, Link);
   A : Link := new Node'(1, 2);
begin
   loop
      declare
         B : Link := A;
      begin
         Free (B);
         exit;
      end;
   end loop;
end Main;
