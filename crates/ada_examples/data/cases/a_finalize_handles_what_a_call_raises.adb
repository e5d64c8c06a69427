with Ada.Finalization; with Ada.Text_IO; with Ada.Unchecked_Deallocation;
procedure Main is
   type Node;
   type Link is access Node;
   type Node is record Value : Integer := 0; Next : Link; end record;
   type List is new Ada.Finalization.Limited_Controlled with record Head : Link; Count : Integer := 0; end record;
   overriding procedure Finalize (Object : in out List);
   procedure Free is new Ada.Unchecked_Deallocation (Node, Link);
   Wrong : exception;
   procedure Free_One (L : in out Link; Wanted : in Integer) is
      Taken : Link;
   begin
      Taken := L.Next;
      L.Next := null;
      Free (Taken);
      if L.Value /= Wanted then
         raise Wrong;
      end if;
      Free (L);
   end Free_One;
   overriding procedure Finalize (Object : in out List) is
      Mine : Link;
   begin
      Mine := Object.Head;
      Object.Head := null;
      Free_One (Mine, Object.Count);
      Ada.Text_IO.Put_Line ("as wanted");
   exception
      when Wrong => Ada.Text_IO.Put_Line ("wrong");
      when Constraint_Error => Ada.Text_IO.Put_Line ("null");
   end Finalize;
   A : List;
   B : List;
   C : List;
begin
   A.Head := new Node'(Value => 7, Next => null);
   A.Head.Next := new Node;
   A.Count := 7;
   B.Head := new Node'(Value => 8, Next => null);
   B.Head.Next := new Node;
   Ada.Text_IO.Put_Line ("behind");
end Main;
