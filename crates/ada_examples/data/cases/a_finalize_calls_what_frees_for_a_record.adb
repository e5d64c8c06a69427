with Ada.Finalization; with Ada.Text_IO; with Ada.Unchecked_Deallocation;
procedure Main is
   type Node;
   type Link is access Node;
   type Node is record Value : Integer := 0; Next : Link; end record;
   type List is new Ada.Finalization.Limited_Controlled with record Head : Link; Count : Integer := 0; end record;
   overriding procedure Finalize (Object : in out List);
   procedure Free is new Ada.Unchecked_Deallocation (Node, Link);
   procedure Pop (From : in out List) is
      Rest : Link;
   begin
      Ada.Text_IO.Put_Line (Integer'Image (From.Head.Value));
      Rest := From.Head.Next;
      From.Head.Next := null;
      Free (From.Head);
      From.Head := Rest;
      From.Count := From.Count - 1;
   end Pop;
   overriding procedure Finalize (Object : in out List) is
   begin
      while Object.Count > 0 loop
         Pop (Object);
      end loop;
      Ada.Text_IO.Put_Line ("empty");
   exception
      when Constraint_Error => Ada.Text_IO.Put_Line ("null comes first");
   end Finalize;
   A : List;
   B : List;
begin
   A.Head := new Node'(Value => 1, Next => null);
   A.Head := new Node'(Value => 2, Next => A.Head);
   A.Count := 2;
   B.Head := new Node'(Value => 3, Next => null);
   B.Count := 2;
   Pop (A);
   Ada.Text_IO.Put_Line ("behind");
end Main;
