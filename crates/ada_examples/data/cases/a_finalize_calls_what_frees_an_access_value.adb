with Ada.Finalization; with Ada.Text_IO; with Ada.Unchecked_Deallocation;
procedure Main is
   type Node;
   type Link is access Node;
   type Node is record Value : Integer := 0; Next : Link; end record;
   type List is new Ada.Finalization.Limited_Controlled with record Head : Link; Count : Integer := 0; end record;
   overriding procedure Finalize (Object : in out List);
   procedure Free is new Ada.Unchecked_Deallocation (Node, Link);
   procedure End_It (L : in out Link) is
   begin
      if L /= null then
         Ada.Text_IO.Put_Line (Integer'Image (L.Value));
         Free (L);
      end if;
   exception
      when Constraint_Error => null;
   end End_It;
   overriding procedure Finalize (Object : in out List) is
      Rest : Link;
   begin
      Rest := Object.Head;
      Object.Head := null;
      End_It (Rest);
      End_It (Rest);
      Ada.Text_IO.Put_Line ("finalized");
   end Finalize;
   A : List;
begin
   declare
      B : List;
   begin
      B.Head := new Node'(Value => 4, Next => null);
      A.Head := new Node'(Value => 5, Next => null);
      Ada.Text_IO.Put_Line ("behind");
   end;
end Main;
