with Ada.Finalization; with Ada.Text_IO; with Ada.Unchecked_Deallocation;
procedure Main is
   type Bead;
   type Thread is access Bead;
   type Bead is record Tone : Integer := 0; Next : Thread; end record;
   type Chain is new Ada.Finalization.Controlled with record Head : Thread; end record;
   overriding procedure Adjust (Object : in out Chain);
   overriding procedure Finalize (Object : in out Chain);
   procedure Free is new Ada.Unchecked_Deallocation (Bead, Thread);
   overriding procedure Adjust (Object : in out Chain) is
      Made : Thread;
      Seen : access Bead := Object.Head;
   begin
      while Seen /= null loop
         Made := new Bead'(Tone => Seen.Tone, Next => Made);
         Seen := Seen.Next;
      end loop;
      Object.Head := Made;
   exception
      when others => Object.Head := null;
   end Adjust;
   overriding procedure Finalize (Object : in out Chain) is
      First : Thread;
      Rest  : Thread;
   begin
      First := Object.Head;
      Object.Head := null;
      while First /= null loop
         Rest := First.Next;
         First.Next := null;
         Free (First);
         First := Rest;
         Rest := null;
      end loop;
   exception
      when Constraint_Error => null;
   end Finalize;
   One : Chain;
begin
   One.Head := new Bead'(Tone => 3, Next => null);
   One.Head := new Bead'(Tone => 2, Next => One.Head);
   One.Head := new Bead'(Tone => 1, Next => One.Head);
   declare
      Two   : Chain := One;
      Three : Chain;
   begin
      Three := Two;
      Ada.Text_IO.Put_Line (Integer'Image (Two.Head.Tone));
      Ada.Text_IO.Put_Line (Integer'Image (Three.Head.Next.Next.Tone));
   end;
end Main;
