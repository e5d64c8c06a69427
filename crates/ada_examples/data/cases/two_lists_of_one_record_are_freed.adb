with Ada.Finalization; with Ada.Text_IO; with Ada.Unchecked_Deallocation;
procedure Main is
   type Node;
   type Link is access Node;
   type Node is record Value : Integer := 0; Next : Link; end record;
   type List is new Ada.Finalization.Limited_Controlled with record Head : Link; Count : Integer := 0; end record;
   overriding procedure Initialize (Object : in out List);
   overriding procedure Finalize (Object : in out List);
   type Pair is record Left : List; Right : List; Mark : Integer := 5; end record;
   procedure Free is new Ada.Unchecked_Deallocation (Node, Link);
   overriding procedure Initialize (Object : in out List) is
   begin
      Object.Count := 1;
      Ada.Text_IO.Put_Line ("initialize");
   end Initialize;
   overriding procedure Finalize (Object : in out List) is
      Rest : Link;
   begin
      Ada.Text_IO.Put_Line (Integer'Image (Object.Count));
      loop
         exit when Object.Head = null;
         Ada.Text_IO.Put_Line (Integer'Image (Object.Head.Value));
         Rest := Object.Head.Next;
         Object.Head.Next := null;
         Free (Object.Head);
         Object.Head := Rest;
         Rest := null;
      end loop;
   exception
      when Constraint_Error => null;
   end Finalize;
begin
   declare
      P : Pair;
   begin
      P.Left.Head := new Node'(Value => 11, Next => null);
      P.Left.Head := new Node'(Value => 12, Next => P.Left.Head);
      P.Left.Count := P.Left.Count + 2;
      P.Right.Head := new Node'(Value => 21, Next => null);
      P.Right.Count := P.Right.Count + 1;
      Ada.Text_IO.Put_Line (Integer'Image (P.Mark));
   end;
   Ada.Text_IO.Put_Line ("behind");
end Main;
