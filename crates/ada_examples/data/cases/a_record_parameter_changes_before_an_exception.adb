with Ada.Text_IO;
with Ada.Unchecked_Deallocation;

procedure Main is
   type Node;
   type Link is access Node;
   type Node is record
      Value : Integer := 0;
      Next  : Link;
   end record;
   procedure Free is new Ada.Unchecked_Deallocation (Node, Link);
   procedure Add (N : in out Node) is
   begin
      N.Value := 8;
      raise Program_Error;
   end Add;
   A : Link := new Node'(1, null);
begin
   Add (A.all);
   exception
      when others => Ada.Text_IO.Put_Line (Integer'Image (A.Value));
end Main;
