with Ada.Text_IO;
with Ada.Unchecked_Deallocation;

procedure Main is
   type Node;
   type Link is access Node;
   type Node is record
      Value : Integer := 0;
      Next  : Link;
   end record;
   procedure Free is new Ada.Unchecked_Deallocation (Node, Link);
   procedure Add (N : in out Node; Amount : Integer) is
   begin
      N.Value := N.Value + Amount;
   end Add;
   procedure Twice (N : in out Node) is
   begin
      Add (N, 1);
      Add (N, 1);
   end Twice;
   A : Link := new Node'(1, null);
begin
   Twice (A.all);
   Ada.Text_IO.Put_Line (Integer'Image (A.Value));
end Main;
