with Ada.Text_IO;
with Ada.Unchecked_Deallocation;

procedure Main is
   type Node;
   type Link is access Node;
   type Node is record
      Value : Integer := 0;
      Next  : Link;
   end record;
   procedure Free is new Ada.Unchecked_Deallocation (Node, Link);
   procedure Both (M : in out Node; N : in out Node) is
   begin
      M.Value := 3;
      N.Value := N.Value + M.Value;
   end Both;
   A : Link := new Node'(1, null);
   B : access Node := A;
begin
   Both (A.all, B.all);
   Ada.Text_IO.Put_Line (Integer'Image (A.Value));
end Main;
