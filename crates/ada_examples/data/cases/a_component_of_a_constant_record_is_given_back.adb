with Ada.Text_IO;
with Ada.Unchecked_Deallocation;

procedure Main is
   type Node;
   type Link is access Node;
   type Node is record
      Value : Integer := 0;
      Next  : Link;
   end record;
   procedure Free is new Ada.Unchecked_Deallocation (Node, Link);
   procedure Next (I : in out Integer) is
   begin
      I := I + 1;
   end Next;
   procedure Twice (N : Node) is
   begin
      Next (N.Value);
   end Twice;
begin
   null;
end Main;
