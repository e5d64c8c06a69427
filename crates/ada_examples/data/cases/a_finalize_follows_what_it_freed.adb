with Ada.Finalization; with Ada.Text_IO; with Ada.Unchecked_Deallocation;
procedure Main is
   type Node;
   type Link is access Node;
   type Node is record Value : Integer := 0; Next : Link; end record;
   type List is new Ada.Finalization.Limited_Controlled with record Head : Link; end record;
   overriding procedure Finalize (Object : in out List);
   procedure Free is new Ada.Unchecked_Deallocation (Node, Link);
   overriding procedure Finalize (Object : in out List) is
      Seen : access Node := Object.Head;
   begin
      Free (Object.Head);
      Ada.Text_IO.Put_Line (Integer'Image (Seen.Value));
   exception
      when Constraint_Error => null;
   end Finalize;
   L : List;
begin
   L.Head := new Node'(Value => 1, Next => null);
end Main;
