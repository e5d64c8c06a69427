with Ada.Finalization; with Ada.Text_IO; with Ada.Unchecked_Deallocation;
procedure Main is
   type Node;
   type Link is access Node;
   type Node is record Value : Integer := 0; Next : Link; end record;
   type List is new Ada.Finalization.Limited_Controlled with record Head : Link; Count : Integer := 0; end record;
   overriding procedure Finalize (Object : in out List);
   procedure Free is new Ada.Unchecked_Deallocation (Node, Link);
   procedure Tell (N : in Integer) is
   begin
      Ada.Text_IO.Put_Line (Integer'Image (N));
   end Tell;
   procedure Drop (L : in out Link) is
      procedure Tell_And_Free (M : in out Link) is
      begin
         Tell (M.Value);
         Free (M);
      end Tell_And_Free;
   begin
      Tell_And_Free (L);
   exception
      when Constraint_Error => Ada.Text_IO.Put_Line ("null");
   end Drop;
   overriding procedure Finalize (Object : in out List) is
      Mine : Link;
   begin
      Tell (Object.Count);
      Mine := Object.Head;
      Object.Head := null;
      Drop (Mine);
   end Finalize;
   A : List;
   B : List;
begin
   A.Count := 1;
   B.Count := 2;
   B.Head := new Node'(Value => 20, Next => null);
end Main;
